# Tells how far a run is when the ledger is loaded, before any of it is booked: the seconds of processor time
# so far, and the peak of resident memory in bytes. The program and its words are those that gdb was given.
set pagination off
set confirm off
python
import gdb

def so_far():
    process = f"/proc/{gdb.selected_inferior().pid}"
    nanoseconds = open(f"{process}/schedstat").read().split()[0]
    peak = next(line.split()[1] for line in open(f"{process}/status") if line.startswith("VmHWM"))
    print("loaded", int(nanoseconds) / 1e9, int(peak) * 1024)
end
rbreak ^bean_load::loaded::load$
run
finish
python so_far()
kill
