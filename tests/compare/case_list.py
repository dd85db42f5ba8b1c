# -- query: what it answers
query("query_sale", "A sale in FIFO order, of which lots were taken.", "SELECT account, position WHERE date >= 2014-02-01", want="""account      position
-----------  ---------------------------------
Assets:Inv   -10 HOOL {100.00 USD, 2014-01-02}
Assets:Inv   -2 HOOL {110.00 USD, 2014-01-03}
Assets:Cash  1300.00 USD
Income:Gain  -80.00 USD
""")
query("query_sums", "What each account holds, in order of first appearance; with each growth of memory refused in turn.",
      "SELECT account, sum(position)", memory=True, want="""account      sum(position)
-----------  -------------------------------
Assets:Inv   3 HOOL {110.00 USD, 2014-01-03}
Assets:Cash  -250.00 USD
Income:Gain  -80.00 USD
""")
query("query_balances", "BALANCES are in the order of accounts.", "BALANCES")
query("query_balances_at_cost", "What is held, at what it cost.", "BALANCES AT cost")
query("query_balances_filtered", "BALANCES of some transactions and some accounts.", "BALANCES AT units FROM month = 1 WHERE account ~ '^assets'")
query("query_balances_of_all_roots", "The order of the five kinds of accounts is not that of their letters.", "BALANCES", ledger="""2014-01-01 open Assets:Cash
2014-01-01 open Equity:Open
2014-01-01 open Expenses:Food
2014-01-01 open Income:Pay
2014-01-01 open Liabilities:Card
2014-01-02 * "All"
  Expenses:Food  1 USD
  Income:Pay  1 USD
  Equity:Open  1 USD
  Liabilities:Card  1 USD
  Assets:Cash  -4 USD
""")
query("query_journal", "JOURNAL of the accounts that a pattern finds, without regard to case, with the running balance of these.",
      "JOURNAL 'CASH'", want="""date        flag  payee  narration  account      position      balance
----------  ----  -----  ---------  -----------  ------------  ------------
2014-01-02  *            Buy        Assets:Cash  -1000.00 USD  -1000.00 USD
2014-01-03  *            Buy        Assets:Cash  -550.00 USD   -1550.00 USD
2014-02-01  *            Sell       Assets:Cash  1300.00 USD   -250.00 USD
""")
query("query_journal_at_cost", "JOURNAL at cost, of a part of the transactions.", "JOURNAL 'inv' AT COST FROM date < 2014-02-01")
query("query_journal_of_all", "JOURNAL without a pattern is of all accounts.", "JOURNAL AT units")
query("query_null", "Null is equal to itself alone, is less than nothing, and no pattern finds anything in it.",
      "SELECT payee = NULL AS a, payee < 'a' AS b, NOT payee ~ 'x' AS c LIMIT 1", ledger=START, want="""a     b      c
----  -----  ----
TRUE  FALSE  TRUE
""")
query("query_null_first", "Null sorts first, and last under DESC; arithmetic of it is null; ties keep their order.",
      "SELECT account, cost_number, cost_number + 1 ORDER BY cost_number")
query("query_null_last", "Null sorts last under DESC.", "SELECT account, cost_number ORDER BY cost_number DESC")
query("query_weights", "The weight of units with a total price is the total.", "SELECT weight", ledger=EXCHANGED, want="""weight
-----------
-436.01 CAD
436.01 CAD
""")
query("query_order_descending", "Postings in descending order of their narrations, ties as they stand, and the first three of them.",
      "SELECT narration, account ORDER BY narration DESC LIMIT 3", want="""narration  account
---------  -----------
Sell       Assets:Inv
Sell       Assets:Inv
Sell       Assets:Cash
""")
query("query_distinct", "The same with equal rows told once, before three are taken.",
      "SELECT DISTINCT narration, account ORDER BY narration DESC LIMIT 3", want="""narration  account
---------  -----------
Sell       Assets:Inv
Sell       Assets:Cash
Sell       Income:Gain
""")
query("query_limit_none", "LIMIT 0 leaves the names.", "SELECT narration, account ORDER BY narration DESC LIMIT 0",
      want="narration  account\n---------  -------\n")
query("query_limit_beyond", "A limit above the count of rows takes all.", "SELECT narration, account ORDER BY narration DESC LIMIT 99")
query("query_order_by_several", "Order by several items, of which one is no target and one is a number of a target.",
      "SELECT account, number ORDER BY currency, 2 DESC")
query("query_order_by_sum", "Groups in the order of what is summed.", "SELECT account, count(*) AS n GROUP BY account ORDER BY n, account DESC")
for name, pattern, rows in (("word", "cash", 3), ("whole", "^assets:(cash|inv)$", 7), ("class", "[a-z]+:gain", 1), ("point", "\\.", 0), ("empty", "", 8)):
    text = f"SELECT account WHERE account ~ '{pattern}'"
    out = run_words(["query", "l", text], MemoryStore({"l": LOTS.encode()}), 2)[0]
    assert out.count(b"\n") == rows + 2, name
    query(f"query_pattern_{name}", f"Accounts that a pattern finds, {rows} of eight.", text)
    case(f"run_pattern_{name}", f"The same by a query file that has the pattern.", ["run", "f", "l"], {"f": compiled(text), "l": LOTS})
query("query_running_balance", "The running balance of the postings that pass, which stays theirs where the rows are turned.",
      "SELECT balance WHERE account ~ 'cash' ORDER BY date DESC", want="""balance
------------
-250.00 USD
-1550.00 USD
-1000.00 USD
""")
query("query_balance_of_lots", "A running balance of lots, in which a lot that is sold is no more.",
      "SELECT position, balance, units(balance), cost(balance) WHERE account ~ 'inv'")
MANY = """2014-01-01 open Assets:Cash
2014-01-01 open Equity:Open
""" + "".join(f"2014-01-{2 + i:02d} * \"Start\"\n  Assets:Cash  {10 + i}.00 C{i}\n  Equity:Open\n" for i in range(10)) + """2014-01-20 * "There"
  Assets:Cash  -11.00 C1
  Equity:Open
2014-01-21 * "And back"
  Assets:Cash  11.00 C1
  Equity:Open
2014-01-22 * "More"
  Assets:Cash  1.00 C9
  Equity:Open
"""
query("query_balance_of_many", "A running balance of many currencies, of which one goes and comes back behind the others.",
      "SELECT position, balance WHERE account ~ 'cash'", ledger=MANY)
query("query_balance_of_many_cut", "The same in the other order, cut at a limit; with each growth of memory refused in turn.",
      "SELECT balance, units(balance) WHERE account ~ 'cash' ORDER BY date DESC LIMIT 2", memory=True, ledger=MANY)
query("query_balance_of_many_once", "The same balance in another order of entry is told once.",
      "SELECT DISTINCT balance WHERE account ~ 'cash'", ledger=MANY)
query("query_metadata", "Metadata of a posting, of its transaction, and of either.",
      "SELECT meta('k'), entry_meta('k'), any_meta('k')", ledger=META, want="""meta('k')  entry_meta('k')  any_meta('k')
---------  ---------------  -------------
t          1.50 USD         t
           1.50 USD         1.50 USD
""")
query("query_metadata_of_all_kinds", "What each kind of value is as a text; nothing and an absent key are null.",
      "SELECT meta('a') AS a, meta('b') AS b, meta('c') AS c, meta('d') AS d, meta('e') AS e, meta('f') AS f, meta('g') AS g, meta('h') = NULL AS h, meta('i') = NULL AS i LIMIT 1",
      ledger="""2014-01-01 open Assets:Cash
2014-01-01 open Equity:Open
2014-01-02 * "Start"
  Assets:Cash  100.00 USD
    a: "a text"
    b: Assets:Cash
    c: 2014-01-02
    d: USD
    e: #trip
    f: 1.50 + 2.5
    g: 10.00 USD
    h:
  Equity:Open  -100.00 USD
""")
query("query_metadata_truth", "Truth as a text, by a word and by its absence; the first entry of a key stands.",
      "SELECT meta('t'), entry_meta('t')", ledger=START.replace("100.00 USD\n  E", "100.00 USD\n    t: TRUE\n    t: FALSE\n  E"))
query("query_metadata_pushed", "A pushed entry belongs to the transactions between push and pop, after their own.",
      "SELECT narration, entry_meta('k'), tags", ledger="""2014-01-01 open Assets:Cash
2014-01-01 open Equity:Open
pushmeta k: "pushed"
pushtag #trip
2014-01-02 * "One" #own
  Assets:Cash  1 USD
  Equity:Open
2014-01-02 * "Two"
  k: "its own"
  Assets:Cash  1 USD
  Equity:Open
popmeta k:
poptag #trip
2014-01-02 * "Three"
  Assets:Cash  1 USD
  Equity:Open
""")
query("query_counts_no_null", "COUNT of what is null counts nothing, and FIRST of it is null.", "SELECT count(payee), first(payee)",
      want="count(payee)  first(payee)\n------------  ------------\n           0\n")
query("query_aggregates", "All aggregates of numbers.", "SELECT count(*), count(cost_number), sum(number), first(number), last(number), min(number), max(number)")
query("query_aggregates_of_nothing", "Where no posting passes there is no group and no row.", "SELECT count(*), sum(number) WHERE FALSE")
query("query_by_currency", "Groups by a target's number.", "SELECT currency, count(*), sum(number) GROUP BY 1", want="""currency  count(*)  sum(number)
--------  --------  -----------
HOOL             4            3
USD              4         -330
""")
query("query_group_by_name", "A group item that is a target's name is the target, before a column of that name.",
      "SELECT leaf(account) AS account, count(*) GROUP BY account")
query("query_group_not_shown", "A key that isn't shown.", "SELECT count(*) GROUP BY account")
query("query_keys_in_expressions", "An expression of a key in targets and in the order.",
      "SELECT root(account, 1) AS r, length(account) + count(*) GROUP BY account ORDER BY account DESC")
query("query_group_order", "Groups stand in the order of first appearance.", "SELECT month, account, count(*) GROUP BY month, account")
query("query_prices", "The price of one, where one was written.", "SELECT position, price", ledger=BOUGHT, want="""position    price
----------  ---------
2 HOOL      10.50 USD
-21.00 USD
""")
query("query_total_price", "A total price is no price of one.", "SELECT position, price", ledger=EXCHANGED)
query("query_price_of_lots", "A price beside a cost; each lot that is taken has it.", "SELECT position, price, number(price) WHERE account ~ 'inv'",
      ledger=LOTS.replace("-12 HOOL {}", "-12 HOOL {} @ 120 USD"))
query("query_star", "SELECT * shows five columns.", "SELECT *", ledger=START)
query("query_as_list", "What `list` prints.", "SELECT date, flag, account, position", ledger=START)
query("query_any_case", "Words and names have no case; a name is shown as it is written.", "select Account, COUNT( * ) as N group by ACCOUNT;", ledger=START)
query("query_names_of_targets", "A target without AS has the name of its text.", "SELECT number  +  1, (number), +number, \"a'b\"", ledger=START)
query("query_all_columns", "All columns of a posting.", "SELECT date, year, month, day, flag, payee, narration, tags, links, account, posting_flag, number, currency, cost_number, cost_currency, cost_date, cost_label, position, weight, balance, lineno, price",
      ledger="""2014-01-01 open Assets:Inv
2014-01-01 open Assets:Cash
2014-01-02 ! "Broker" "Buy" #b #a ^l
  * Assets:Inv  2 HOOL {100.50 USD, "first"} @ 101 USD
  Assets:Cash
""")
query("query_functions", "Functions of texts, days, amounts and sets.", "SELECT root(account, 1), parent(account), leaf(account), length(account), length(tags), year(date), month(date), day(date), units(position), cost(position), number(cost(position)), currency(weight), abs(number)" , ledger=LOTS.replace('"Sell"', '"Sell" #a #b'))
query("query_sets", "IN a set, and sets in the order of their texts.", "SELECT narration, tags WHERE 'trip' IN tags", ledger=START.replace('"Start"', '"Start" #trip #a ^b'))
query("query_lists", "IN lists of numbers, texts and days.", "SELECT number, account WHERE number IN (10, 5.0) OR account IN ('Income:Gain') OR date IN (2014-02-01)")
query("query_has_account", "Transactions that touch an account, by a pattern.", "SELECT account, narration FROM has_account('gain')")
query("query_filter_of_transactions", "FROM and WHERE must both hold.", "SELECT account FROM narration = 'Buy' WHERE number < 0 AND NOT account ~ 'inv'")
query("query_logic", "AND binds closer than OR, NOT closer than AND, comparisons closer still.", "SELECT TRUE OR FALSE AND FALSE, NOT FALSE AND FALSE, (TRUE OR FALSE) AND FALSE, NOT 1 = 2, 1 + 2 * 3 = 7", ledger=START)
query("query_exact_numbers", "Numbers are exact, and shown with the fewest decimals that are.", "SELECT number * 0.000001, number - 0.10, -number * 1.5, 0.1 + 0.2 = 0.3, 1.50 = 1.5 LIMIT 1", ledger=START)
query("query_paddings", "Paddings have a flag and a narration of their own.", "SELECT date, flag, narration, account, number, lineno", ledger="""2014-01-01 open Assets:Cash
2014-01-01 open Equity:Open
2014-01-03 pad Assets:Cash Equity:Open
2014-01-05 balance Assets:Cash 100.00 USD
""")
query("query_control_characters", "Control characters of texts are shown as spaces.", "SELECT narration, 'a\tb' AS t LIMIT 1", ledger=START.replace('"Start"', '"a\\tb\\nc"'))
query("query_wide_texts", "Wide characters take two columns.", "SELECT narration, account LIMIT 1", ledger=START.replace('"Start"', '"漢字 é"'))
query("query_empty_ledger", "No posting, no row.", "SELECT account, number", ledger="")
query("query_of_faulty_books", "What has faults is asked as it is booked.", "SELECT account, number", ledger=START.replace("-100.00", "-99.00"))
case("query_standard_input", "The ledger is standard input.", ["query", "-", "SELECT account"], stdin=START)
case("query_full_device", "The output takes nothing.", ["query", "l", "SELECT account"], {"l": START}, full=True)

# -- query: refusals
asked("query_q1_ends", "A query that ends too soon.", "SELECT", "Q1 at 6")
asked("query_q1_token", "A token that can't go on.", "SELECT account WHERE FROM", "Q1 at 21")
asked("query_q1_unclosed_text", "A text that isn't closed.", "SELECT account WHERE account = 'a", "Q1 at 31")
asked("query_q1_no_such_day", "A day that doesn't exist.", "SELECT 2014-02-30", "Q1 at 7")
asked("query_q1_two_directions", "One direction holds for the whole ORDER BY, and stands at its end.", "SELECT account, number ORDER BY number DESC, account", "Q1 at 43")
asked("query_q1_empty", "No query at all.", "", "Q1 at 0")
asked("query_q2_column", "A column that isn't known.", "SELECT foo", "Q2 at 7")
asked("query_q2_item", "An item above the count of targets.", "SELECT account ORDER BY 2", "Q2 at 24")
asked("query_q2_price_in_from", "FROM knows no price.", "SELECT account FROM price = NULL", "Q2 at 20")
asked("query_q3_division", "There is no division.", "SELECT number / 2", "Q3 at 14")
asked("query_q3_both_null", "Null stands on one side alone.", "SELECT NULL = NULL", "Q3 at 7")
asked("query_q3_left_out", "A word that is left out.", "SELECT account, count(*) GROUP BY account HAVING count(*) > 1", "Q3 at 42")
asked("query_q3_too_high", "An expression that is too high.", "SELECT 1 WHERE " + " OR ".join(["TRUE"] * 201), "Q3 at 15")
asked("query_q3_too_many_targets", "256 targets.", "SELECT " + ",".join(["1"] * 256), "Q3 at 517")
asked("query_q3_too_deep", "201 parentheses in one another.", "SELECT " + "(" * 201 + "1" + ")" * 201, "Q3 at 207")
asked("query_y1", "A text and a number can't be added.", "SELECT account + 1", "Y1 at 7")
asked("query_y1_filter", "A filter is no number.", "SELECT account WHERE number", "Y1 at 21")
asked("query_y1_arguments", "A wrong count of arguments.", "SELECT length(account, account)", "Y1 at 7")
asked("query_y2", "An aggregate in an aggregate.", "SELECT sum(count(*))", "Y2 at 11")
asked("query_y2_filter", "An aggregate in a filter.", "SELECT account WHERE count(*) > 1", "Y2 at 21")
asked("query_y3", "A target that isn't grouped.", "SELECT account, count(*) GROUP BY year", "Y3 at 7")
asked("query_y3_metadata", "Metadata that isn't grouped.", "SELECT meta('k'), count(*) GROUP BY account", "Y3 at 7")
asked("query_y4", "Positions have no order.", "SELECT position ORDER BY position", "Y4 at 25")
asked("query_y5", "A sum of products that may be too wide.", "SELECT sum(number * number)", "Y5 at 11")
asked("query_y5_cost", "The cost of a cost.", "SELECT cost(cost(sum(position)))", "Y5 at 7")
asked("query_y6", "The running balance has no place beside aggregates.", "SELECT balance, count(*)", "Y6 at 7")
asked("query_y6_filter", "The running balance has no place in a filter.", "SELECT account WHERE balance = NULL", "Y6 at 21")
C1 = "SELECT " + ", ".join("+".join(f"min({i * 64 + j})" for j in range(64)) for i in range(4)) + ", min(256)"
asked("query_c1", "257 aggregates.", C1, "C1")
asked("query_c2", "A pattern that isn't closed.", "SELECT payee ~ '('", "C2")
asked("query_c3", "257 values of a row.", "SELECT " + ", ".join(["year"] * 255) + " ORDER BY month, day", "C3")

# -- query: the order in which causes are told
case("query_words_before_text", "Words are judged before the text of a query.", ["query", "l"], err="words")
case("query_three_words", "A word too many.", ["query", "l", "SELECT account", "more"], err="words")
case("query_unknown_flag", "query has no bounds.", ["query", "l", "SELECT account", "--digits", "10"], {"l": START}, err="words")
case("query_text_before_ledger", "The text of a query is judged before the ledger is asked for.", ["query", "missing", "SELECT"], err="Q1 at 6")
case("query_no_ledger", "The ledger can't be read.", ["query", "missing", "SELECT account"], err="L1")
case("query_not_utf8", "The ledger is no UTF-8.", ["query", "l", "SELECT account"], {"l": b"\xff"}, err="L2")
case("query_least_place", "Of several causes the least place is told, then the lesser number.", ["query", "l", "SELECT balance, count(*) GROUP BY account"], err="Y3 at 7")

# -- compile
case("compile_count", "`SELECT count(*)`, at the widest bounds; with each growth of memory refused in turn.", ["compile", "SELECT count(*)", "f"], kept=["f"], memory=True)
case("compile_bounds", "Narrower bounds stand in the file.", ["compile", "SELECT count(*)", "f", "--postings", "2", "--digits", "10", "--value-digits", "18"], kept=["f"])
case("compile_bounds_first", "Bounds may stand before the words.", ["compile", "--digits=10", "SELECT count(*)", "f"], kept=["f"])
case("compile_narrow_digits", "What is too wide at 20 digits fits at 14.", ["compile", "SELECT sum(number * number)", "f", "--digits", "14"], kept=["f"])
case("compile_too_wide", "At 20 digits it may be too wide.", ["compile", "SELECT sum(number * number)", "f"], err="Y5 at 11")
case("compile_balances", "BALANCES have a hidden value, by which they are ordered.", ["compile", "BALANCES", "f"], kept=["f"])
case("compile_journal", "JOURNAL of a pattern.", ["compile", "JOURNAL 'CASH'", "f"], kept=["f"])
case("compile_logic", "Jumps of AND, OR and NOT, aligned numbers, a list and constants that stand once.",
     ["compile", "SELECT number WHERE (number > 1.5 OR account = 'a') AND NOT number IN (1, 2.25) AND account != 'a' ORDER BY date DESC LIMIT 3", "f"], kept=["f"])
case("compile_over_a_file", "A file that stands under the name is replaced.", ["compile", "SELECT count(*)", "f"], {"f": "old\n"}, kept=["f"], memory=True)
case("compile_refused", "Where a query is refused, what stands under the name stays.", ["compile", "SELECT", "f"], {"f": "old\n"}, kept=["f"], err="Q1 at 6")
case("compile_not_kept", "The file is to stand in a folder that is not there.", ["compile", "SELECT count(*)", "missing/f"], err="P1")
case("compile_text_before_file", "The text is judged before the file is written.", ["compile", "SELECT payee ~ '('", "missing/f"], err="C2")
case("compile_postings_most", "The most postings.", ["compile", "SELECT count(*)", "f", "--postings", "4000000"], kept=["f"])
case("compile_least_bounds", "The least bounds.", ["compile", "SELECT count(*)", "f", "--postings", "1", "--digits", "1", "--value-digits", "1"], kept=["f"])
for name, what, words in (("postings_none", "No postings at all.", ["--postings", "0"]), ("postings_many", "Too many postings.", ["--postings", "4000001"]),
                          ("digits_none", "No digit.", ["--digits", "0"]), ("digits_many", "Too many digits.", ["--digits", "21"]),
                          ("value_digits_many", "Too many digits of values.", ["--value-digits", "29"]), ("postings_no_number", "No number.", ["--postings", "many"]),
                          ("postings_huge", "A number past 64 bits.", ["--postings", "18446744073709551616"]), ("bound_twice", "A bound that is given twice.", ["--digits", "10", "--digits", "10"]),
                          ("bound_without_number", "A bound without its number.", ["--digits"]), ("unknown_bound", "A bound that isn't known.", ["--depth", "3"])):
    case(f"compile_words_{name}", what, ["compile", "SELECT count(*)", "f", *words], err="words")
case("compile_words_before_text", "Bounds are judged before the text.", ["compile", "SELECT", "f", "--postings", "0"], err="words")
case("compile_words_no_file", "compile wants a file.", ["compile", "SELECT count(*)"], err="words")

# -- run
case("run_count", "`SELECT count(*)` over three postings; with each growth of memory refused in turn.", ["run", "f", "l"], {"f": COUNT2, "l": PRICE}, memory=True,
     want="count(*)\n--------\n       3\n")
case("run_first_version", "The same by a file of the first version.", ["run", "f", "l"], {"f": COUNT1, "l": PRICE}, want="count(*)\n--------\n       3\n")
case("run_empty_ledger", "No posting, no group, no row.", ["run", "f", "l"], {"f": COUNT2, "l": ""}, want="count(*)\n--------\n")
case("run_standard_input", "The ledger is standard input.", ["run", "f", "-"], {"f": COUNT2}, stdin=PRICE)
case("run_too_many_postings", "A ledger of more postings than the file allows.", ["run", "f", "l"], {"f": compiled("SELECT count(*)", "--postings", "2"), "l": PRICE}, err="M1")
case("run_as_many_postings", "A ledger of as many postings as the file allows.", ["run", "f", "l"], {"f": compiled("SELECT count(*)", "--postings", "3"), "l": PRICE})
units = """2014-01-01 open Assets:Cash
2014-01-01 open Equity:Open
2014-01-02 * "Start"
  Assets:Cash  {0} USD
  Equity:Open  -{0} USD
"""
for name, option, digits in (("digits", "--digits", "10"), ("value_digits", "--value-digits", "18")):
    f = compiled("SELECT count(*)", option, digits)
    case(f"run_within_{name}", "Units just below the bound.", ["run", "f", "l"], {"f": f, "l": units.format("99.99999999")}, want="count(*)\n--------\n       2\n")
    case(f"run_outside_{name}", "Units at the bound.", ["run", "f", "l"], {"f": f, "l": units.format("100")}, err="M1")
HALF = """2014-01-01 open Assets:Inv
2014-01-01 open Assets:Cash
2014-01-02 * "Half"
  Assets:Inv  0.5 X @ 100 USD
  Assets:Cash  -50 USD
"""
ten = compiled("SELECT count(*)", "--digits", "10", "--postings", "1000000")
case("run_price_in_first_version", "By the bounds of the first version no price is too large.", ["run", "f", "l"], {"f": first_version(ten), "l": HALF}, want="count(*)\n--------\n       2\n")
case("run_price_in_second_version", "By those of the second version one is.", ["run", "f", "l"], {"f": ten, "l": HALF}, err="M1")
case("run_price_within_bounds", "At 20 digits each price fits.", ["run", "f", "l"], {"f": compiled("SELECT count(*)", "--postings", "1000000"), "l": HALF})
case("run_sums", "A file with aggregates and keys.", ["run", "f", "l"], {"f": compiled("SELECT account, sum(position)"), "l": LOTS})
case("run_journal", "A file with the running balance.", ["run", "f", "l"], {"f": compiled("JOURNAL 'CASH'"), "l": LOTS})
case("run_journal_in_first_version", "The same in the first version.", ["run", "f", "l"], {"f": first_version(compiled("JOURNAL 'CASH'")), "l": LOTS})
slots = bytearray(COUNT2[:34]) + bytes.fromhex("0003" "00" "0500" "0400") + COUNT2[37:]
case("run_slots", "A program by hand, which keeps a value in a slot.", ["run", "f", "l"], {"f": bytes(slots), "l": PRICE})
case("run_refused_file", "A file that isn't accepted.", ["run", "f", "l"], {"f": COUNT2[:34] + bytes.fromhex("000110") + COUNT2[37:], "l": PRICE}, err="V8 at 36")
case("run_no_file", "The file can't be read.", ["run", "missing", "l"], {"l": PRICE}, err="L1")
case("run_no_ledger", "The ledger can't be read.", ["run", "f", "missing"], {"f": COUNT2}, err="L1")
case("run_file_before_ledger", "The file is judged before the ledger is asked for.", ["run", "f", "missing"], {"f": b"BQLX" + COUNT2[4:]}, err="V1 at 0")
case("run_ledger_before_bounds", "The ledger is read before its bounds are looked at.", ["run", "f", "l"], {"f": compiled("SELECT count(*)", "--postings", "1"), "l": b"\xff"}, err="L2")
case("run_words", "run wants two words.", ["run", "f"], {"f": COUNT2}, err="words")
case("run_full_device", "The output takes nothing.", ["run", "f", "l"], {"f": COUNT2, "l": PRICE}, full=True)

# -- upgrade
journal = compiled("JOURNAL 'CASH'", "--postings", "1000000")
case("upgrade_journal", "A file with a pattern and texts: its version is changed, its bounds stay.", ["upgrade", "f", "g"], {"f": first_version(journal)}, kept=["g"])
case("upgrade_old_stays", "The old file stays as it is.", ["upgrade", "f", "g"], {"f": COUNT1, "g": "old\n"}, kept=["f", "g"])

# -- batch
case("batch_two", "Two files over one ledger, in turns of one step; the second has too narrow bounds.", ["batch", "1", "l", "f", "g"],
     {"l": PRICE, "f": COUNT2, "g": compiled("SELECT count(*)", "--postings", "2")}, status=2, want="== f\ncount(*)\n--------\n       3\n== g\nM1\n")
case("batch_one_by_one", "Three files in turns of three steps, each with the answer that it has alone.", ["batch", "3", "l", "f", "g", "h"],
     {"l": LOTS, "f": compiled("SELECT account, sum(position)"), "g": compiled("JOURNAL 'CASH'"), "h": COUNT1})
case("batch_one_turn", "All in one turn.", ["batch", "18446744073709551615", "l", "f"], {"l": LOTS, "f": COUNT2})
case("batch_one_file_twice", "A file may stand twice.", ["batch", "2", "l", "f", "f"], {"l": PRICE, "f": COUNT2})
case("batch_bounds_first", "The run with narrow bounds ends no other.", ["batch", "1", "l", "g", "f"],
     {"l": PRICE, "f": COUNT2, "g": compiled("SELECT count(*)", "--postings", "2")}, status=2)
case("batch_refused_file", "The first file that isn't accepted is told.", ["batch", "1", "missing", "f", "g", "h"],
     {"f": COUNT2, "g": COUNT2[:34] + bytes.fromhex("000110") + COUNT2[37:], "h": b"BQLX"}, err="V8 at 36")
case("batch_no_file", "A file can't be read.", ["batch", "1", "l", "f", "missing"], {"l": PRICE, "f": COUNT2}, err="L1")
case("batch_no_ledger", "The ledger can't be read.", ["batch", "1", "missing", "f"], {"f": COUNT2}, err="L1")
case("batch_empty_ledger", "A run over no posting is done at once.", ["batch", "1", "l", "f"], {"l": "", "f": COUNT2})
case("batch_words_no_steps", "Turns of no step don't end.", ["batch", "0", "l", "f"], {"l": PRICE, "f": COUNT2}, err="words")
case("batch_words_no_number", "Turns of no number.", ["batch", "many", "l", "f"], {"l": PRICE, "f": COUNT2}, err="words")
case("batch_words_past_64_bits", "A number past 64 bits.", ["batch", "18446744073709551616", "l", "f"], {"l": PRICE, "f": COUNT2}, err="words")
case("batch_words_no_file", "A batch of no file.", ["batch", "1", "l"], {"l": PRICE}, err="words")
