"""Queries at their limits and odd corners."""


def edges():
    out = []
    add = out.append
    for n in (198, 199, 200, 201, 202):
        add("SELECT " + "(" * n + "1" + ")" * n)
        add("SELECT " + "-" * n + "1")
        add("SELECT " + "+" * n + "1")
        add("SELECT 1 WHERE " + "NOT " * n + "TRUE")
        add("SELECT 1 WHERE " + "NOT " * n + "NOT (TRUE)")
        add("SELECT " + "abs(" * n + "number" + ")" * n)
        add("SELECT " + "-(" * (n // 2) + "1" + ")" * (n // 2))
        add("SELECT 1 WHERE " + "(" * n + "account IN ('a', 'b')" + ")" * n)
        add("SELECT 1 WHERE " + " OR ".join(["TRUE"] * n))
        add("SELECT 1 WHERE " + " AND ".join(["TRUE"] * n))
        add("SELECT 1 WHERE " + " OR ".join(["1<2"] * n))
        add("SELECT " + "+".join(["1"] * n))
        add("SELECT " + "*".join(["1"] * n))
        add("SELECT 1 WHERE " + "(" * n)
        add("SELECT foo + " + "+".join(["1"] * n))
        add("SELECT 1 WHERE account ~ 'a' AND " + "(" * n + "foo" + ")" * n)
        add("SELECT 1 WHERE " + " AND ".join(["TRUE"] * (n - 1)) + " AND account ~ 'a'")
        add("SELECT sum(" * 1 + "-" * n + "number)")
    for n in (254, 255, 256, 257):
        add("SELECT " + ",".join(["year"] * n))
        add("SELECT " + ",".join(f"{i}" for i in range(n)))
        add("SELECT year ORDER BY " + ",".join(["1"] * n))
        add("SELECT year ORDER BY " + ",".join(["month"] * n))
        add("SELECT year ORDER BY " + ",".join(f"year+{i}" for i in range(n)))
        add("SELECT count(*) GROUP BY " + ",".join(["year"] * n))
        add("SELECT count(*) GROUP BY " + ",".join(f"year+{i}" for i in range(n)))
        add("SELECT " + ",".join(["year"] * (n - 2)) + " ORDER BY month, day")
        add("SELECT " + ",".join(["count(*)"] * (n - 2)) + " ORDER BY min(month), max(day)")
        k = n - 1
        add("SELECT " + ", ".join("+".join(f"min({i})" for i in range(j, min(k, j + 64))) for j in range(0, k, 64)))
        add("SELECT " + ", ".join("+".join(f"min({i})" for i in range(j, min(k, j + 64))) for j in range(0, k, 64)) + " ORDER BY max(1), max(2), max(3)")
        add("SELECT account WHERE number IN (" + ",".join(["1"] * n) + ")")
    for item in ("0", "00", "01", "1", "2", "3", "1.0", "+1", "(1)", "-1", "99999999999999999999999999999999999999999999", "1 + 0", "x", "X", "(x)", "+x", "y", "account", "ACCOUNT",
                 "number", "count(*)", "'x'", "NULL", "TRUE", "2014-01-01", "tags", "position", "balance", "weight", "sum(position)"):
        add(f"SELECT account AS x, number AS account ORDER BY {item}")
        add(f"SELECT account AS x, count(*) AS n GROUP BY {item}")
        add(f"SELECT account AS x, count(*) AS n GROUP BY x ORDER BY {item}")
        add(f"SELECT count(*) AS x, account ORDER BY {item}")
        add(f"SELECT {item}")
        add(f"SELECT account WHERE {item}")
        add(f"SELECT account FROM {item}")
        add(f"SELECT account WHERE ({item}) = NULL")
        add(f"SELECT account WHERE NULL != {item}")
    for n in ("0", "007", "1", "4294967295", "4294967296", "99999999999999999999", "1.0", "-1", "+1", "'1'", "x", "", "1 2", "1;", "1;;", "1 ; "):
        add(f"SELECT account LIMIT {n}")
    for size in (65_533, 65_534, 65_535, 65_536, 65_537, 70_000):
        for base in ("SELECT account", "SELECT foo", "SELECT", "SELECT account + 1", "SELECT 'ééé'", "JOURNAL", "SELECT account ORDER BY 7", "SELECT number / 2"):
            add(base + " " * (size - len(base.encode())))
        add("SELECT '" + "a" * (size - 9) + "'")
        add("SELECT '" + "é" * ((size - 9) // 2) + "'")
        add("SELECT account WHERE account = '" + "é" * (size // 2))
        add("SELECT account AS " + "a" * (size - 18))
        add("SELECT " + "1" * (size - 7))
        add("SELECT account WHERE account ~ '" + "a" * (size - 32) + "'")
    for terms in (6500, 6552, 6553, 6554, 6555, 7000):
        groups = ["(" + " OR ".join(["1<2"] * min(100, terms - i)) + ")" for i in range(0, terms, 100)]
        add("SELECT 1 WHERE " + " OR ".join(groups))
    for number in ("170141183460469231731687303715884105727", "170141183460469231731687303715884105728", "170141183460469231731687303715884105726 + 1",
                   "170141183460469231731687303715884105727 + 1", "170141183460469231731687303715884105727.0", "17014118346046923173168730371588410572.7",
                   "0." + "0" * 31 + "1", "0." + "0" * 32 + "1", "0." + "0" * 31, "0." + "0" * 32, "0." + "0" * 33, "1." + "0" * 32, "1" + "0" * 50, "0" * 60, "0" * 60 + "1", "1.", ".5", "1.5.2", "1e5", "1_000", "1,000",
                   "1." + "0" * 16 + " * 1." + "0" * 16, "1." + "0" * 16 + " * 1." + "0" * 17, "0.1 = 0.10", "1 = 1." + "0" * 32, "99999999 = 1." + "0" * 32,
                   "number = 1." + "0" * 24, "number * number * number", "number * number * number * number", "number + 0." + "0" * 32, "lineno = 0." + "0" * 31 + "1"):
        add(f"SELECT {number}")
        add(f"SELECT -{number}")
        add(f"SELECT abs({number})")
        add(f"SELECT sum({number})")
        add(f"SELECT account WHERE number IN ({number})")
        add(f"SELECT account WHERE number IN (1, {number})")
        add(f"SELECT account WHERE {number} IN (1.5, 2)")
        add(f"SELECT {number} = 1 AND {number} < number")
    words = "SAFEDIV AVG OPEN ON CLOSE CLEAR HAVING PIVOT FLATTEN PRINT RUN CONVERT VALUE TODAY MAXWIDTH PRICE SELECT DISTINCT FROM WHERE GROUP BY ORDER ASC DESC LIMIT AS JOURNAL AT BALANCES AND OR NOT IN TRUE FALSE NULL foo sum meta has_account year position".split()
    for w in words:
        for frame in ("SELECT {}", "SELECT {}(number)", "SELECT {}(1, 2)", "SELECT {}()", "SELECT {}(*)", "SELECT account {}", "SELECT account {} 1", "SELECT account, {} year", "SELECT account AS {}", "SELECT account AS x FROM {}",
                      "SELECT account FROM {} ON 2014-01-01", "SELECT account WHERE {}", "SELECT account WHERE account {} 'a'", "{}", "{} account", "JOURNAL {}", "JOURNAL AT {}", "JOURNAL 'a' {}", "BALANCES {}", "BALANCES AT {}", "BALANCES AT {} FROM year = 1",
                      "SELECT account GROUP BY {}", "SELECT account ORDER BY {}", "SELECT account LIMIT {}", "SELECT account; {}", "SELECT 1 IN ({})", "SELECT 1 IN (1, {})", "SELECT account ~ {}", "SELECT account ORDER {} 1", "SELECT account GROUP {} 1", "SELECT account ORDER BY 1 {}", "SELECT ({}", "SELECT -{}", "SELECT NOT {}", "SELECT 1 + {}"):
            add(frame.format(w))
    for p in ("(", ")", "[", "]", "a{", "a{2}", "a{2,}", "a{,2}", "a{2,1}", "a**", "*", "+", "?", "a|", "|", "()", "(?:a)", "(?i)a", "(?-i)a", "(?x)a b", "(?P<n>a)", "(?<n>a)", "(?=a)", "\\", "\\d", "\\w", "\\b", "\\B", "\\A", "\\z", "\\Z", "\\1", "\\n", "\\t", "\\.", "\\x41", "\\u0041", "\\q", "^", "$", "^$", ".", "[^a]", "[a-z]", "[z-a]", "[[:alpha:]]", "[a&&b]", "a{1000}", "a{1000}{1000}", "a{1001}", "((((((((((a))))))))))", "é", "漢", "ſ", "K", "ß", "İ", "\x00", " ", "a b", "'", "a" * 5000, "(" * 300 + "a" + ")" * 300, "(a|b|c){50}", "[^:]*:[^:]*$", "x{0}", "a??", "a+?", "\\s", "\\S", "\\D", "\\W"):
        q = '"' if "'" in p else "'"
        add(f"SELECT account WHERE account ~ {q}{p}{q}")
        add(f"SELECT narration FROM has_account({q}{p}{q})")
        add(f"JOURNAL {q}{p}{q}")
    for t in ("", " ", "\t", "\n", ";", "'", '"', "é", "\x00", "SELECT\x00", "SELECT 'a", 'SELECT "a', "SELECT 'a' 'b'", "SELECT 'a''b'", "SELECT 2014-01-0", "SELECT 2014-01-011", "SELECT 0000-01-01", "SELECT 0001-01-01", "SELECT 2014-02-29", "SELECT 2012-02-29", "SELECT 2014-13-01",
              "SELECT 2014-1-2", "SELECT 2014 -01-02", "SELECT 12014-01-02", "SELECT 9999-12-31", "SELECT a2014-01-01", "SELECT 2014-01-01a", "SELECT 1a", "SELECT 1 a", "SELECT account account", "SELECT account,", "SELECT ,account", "SELECT *", "SELECT * , account", "SELECT *, *",
              "SELECT DISTINCT *", "SELECT * GROUP BY date", "SELECT * ORDER BY 5", "SELECT * ORDER BY 6", "SELECT * ORDER BY position", "SELECT * FROM year = 2014 LIMIT 1", "SELECT count (*)", "SELECT count(* )", "SELECT sum(*)", "SELECT count(*, 1)", "SELECT count(1, *)", "SELECT count()",
              "SELECT account = NULL = TRUE", "SELECT 1 = 2 = 3", "SELECT 1 < 2 < 3", "SELECT account ~ 'a' ~ 'b'", "SELECT account IN ('a') IN ('b')", "SELECT (account ~ 'a') = TRUE", "SELECT NOT account ~ 'a' = TRUE", "SELECT NOT NOT TRUE", "SELECT - - 1", "SELECT --1", "SELECT 1--1", "SELECT 1 - -1", "SELECT 1-2-3", "SELECT -number * -2", "SELECT 2 * -3",
              "SELECT 'a' IN tags", "SELECT tags IN 'a'", "SELECT 'a' IN (tags)", "SELECT 'a' IN ('a')", "SELECT 'a' IN ()", "SELECT 'a' IN ('a',)", "SELECT 'a' IN ('a' + 'b')", "SELECT 'a' IN (('a'))", "SELECT 1 IN (-1)", "SELECT 1 IN (1, -1)", "SELECT 1 IN (2) * 3", "SELECT 'a' IN (NULL)", "SELECT 'a' IN ('a', NULL)", "SELECT 1 IN (1, 'a', 2014-01-01)", "SELECT TRUE IN (TRUE)", "SELECT TRUE IN (TRUE, FALSE)", "SELECT NULL IN (1, 2)", "SELECT NULL ~ 'a'", "SELECT NULL", "SELECT -NULL", "SELECT (NULL) = account", "SELECT account = (NULL)", "SELECT account = +NULL", "SELECT account < NULL", "SELECT NULL = (NULL)", "SELECT (NULL = account) = NULL",
              "SELECT account WHERE payee = NULL OR payee != NULL", "SELECT sum(balance)", "SELECT sum(first(account))", "SELECT sum(count(account + 1))", "SELECT 1 WHERE sum(number)", "SELECT account GROUP BY count(*)", "SELECT count(*) AS x GROUP BY x", "SELECT account WHERE (account)", "SELECT account WHERE +(account)", "SELECT balance GROUP BY account", "SELECT balance ORDER BY count(*)", "SELECT account ORDER BY balance", "SELECT account ORDER BY length(tags)", "SELECT account GROUP BY balance", "SELECT account GROUP BY account, account", "SELECT account, account GROUP BY account",
              "SELECT account GROUP BY (account)", "SELECT (account), count(*) GROUP BY account", "SELECT +account, count(*) GROUP BY ACCOUNT", "SELECT parent(account), count(*) GROUP BY account", "SELECT account, count(*) GROUP BY parent(account)", "SELECT parent(parent(account)), count(*) GROUP BY parent(account)", "SELECT 1, count(*) GROUP BY account", "SELECT 1.0, count(*) GROUP BY 1.0", "SELECT root(account, 1), root(account, 2), count(*) GROUP BY root(account, 1)", "SELECT meta('k'), meta('K'), count(*) GROUP BY meta('k')", "SELECT META('k'), count(*) GROUP BY meta('k')", "SELECT account IN ('a', 'b'), count(*) GROUP BY account IN ('a', 'b')", "SELECT account IN ('b', 'a'), count(*) GROUP BY account IN ('a', 'b')", "SELECT number = NULL, count(*) GROUP BY NULL = number", "SELECT number = NULL, count(*) GROUP BY number = NULL", "SELECT number = NULL, count(*) GROUP BY number", "SELECT first(account), account", "SELECT first(balance)", "SELECT first(position), last(weight), first(tags), last(price), count(tags)", "SELECT min(tags)", "SELECT max(position)", "SELECT min(balance)", "SELECT sum(price), sum(weight), sum(cost(position)), sum(units(position))", "SELECT sum(sum(number))", "SELECT units(sum(position)), cost(sum(position)), -sum(position), sum(-position), units(cost(sum(position)))", "SELECT number(sum(position))", "SELECT abs(sum(position))", "SELECT currency(sum(position))",
              "SELECT root(account, 0)", "SELECT root(account, 1)", "SELECT root(account, 255)", "SELECT root(account, 256)", "SELECT root(account, -1)", "SELECT root(account, 2.0)", "SELECT root(account, 'a')", "SELECT root(account, (2))", "SELECT root(account, +2)", "SELECT root(account, year)", "SELECT root(account, 002)", "SELECT root(account)", "SELECT root(1, 1)", "SELECT meta(1)", "SELECT meta('k', 'k')", "SELECT meta()", "SELECT meta(('k'))", "SELECT meta(+'k')", "SELECT meta(account)", "SELECT meta('')", "SELECT meta('Not a key')", "SELECT entry_meta('k') FROM entry_meta('k') = 'a'", "SELECT 1 FROM meta('k') = 'a'", "SELECT 1 FROM any_meta('k') = 'a'", "SELECT 1 FROM account = 'a'", "SELECT 1 FROM number = 1", "SELECT 1 FROM tags = tags", "SELECT 1 FROM 'a' IN tags", "SELECT 1 FROM links IN tags", "SELECT 1 WHERE has_account('a')", "SELECT has_account('a')", "SELECT 1 FROM has_account(payee)", "SELECT 1 FROM has_account('a', 'b')", "SELECT 1 FROM has_account(('a'))", "SELECT 1 FROM NOT has_account('a') AND has_account('b')", "SELECT 1 FROM sum(year) = 1", "SELECT 1 FROM count(*) = 1",
              "JOURNAL", "JOURNAL 'a'", "JOURNAL 'a' 'b'", "JOURNAL AT cost", "JOURNAL AT sum", "JOURNAL AT foo", "JOURNAL AT Units;", "JOURNAL 'a' AT cost FROM year = 2014", "JOURNAL FROM account = 'a'", "JOURNAL WHERE TRUE", "JOURNAL FROM TRUE WHERE TRUE", "JOURNAL ''", "JOURNAL '('", "JOURNAL AT", "JOURNAL AT 'cost'", "JOURNAL FROM year", "JOURNAL LIMIT 1", "BALANCES", "BALANCES AT cost FROM year = 2014 WHERE account ~ 'a'", "BALANCES WHERE number > 1", "BALANCES WHERE sum(number) > 1", "BALANCES WHERE balance = NULL", "BALANCES 'a'", "BALANCES AT number", "BALANCES AT price", "BALANCES AT avg", "BALANCES AT units AT cost", "BALANCES FROM price = NULL", "BALANCES ORDER BY account"):
        add(t)
    return out
