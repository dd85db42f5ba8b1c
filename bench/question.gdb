# Tells what an answer takes, from the beginning of a function, whose name is in the environment as FUNCTION, to the
# first byte that is written: the seconds of processor time, and by how many bytes the peak of resident memory rises
# above what is resident where it begins. The program and its words are those that gdb was given.
set pagination off
set confirm off
python
import gdb
import os

def process():
    return f"/proc/{gdb.selected_inferior().pid}"

def seconds():
    return int(open(f"{process()}/schedstat").read().split()[0]) / 1e9

def bytes_of(word):
    return next(int(line.split()[1]) * 1024 for line in open(f"{process()}/status") if line.startswith(word))

# The plain Rust program's names have a mark at their end.
gdb.execute(f"rbreak ^{os.environ['FUNCTION']}\\(::h[0-9a-f]*\\)\\?$")
gdb.execute("run")
# What was the peak so far is forgotten.
open(f"{process()}/clear_refs", "w").write("5")
begun, resident = seconds(), bytes_of("VmRSS")
gdb.execute("catch syscall write")
gdb.execute("continue")
print("taken", seconds() - begun, max(bytes_of("VmHWM") - resident, 0))
end
kill
