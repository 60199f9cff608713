"""Arguments that labels give, and `else`: transactions with their reports, each line worked out by hand from the page of documents;
and those that are refused, each with its first fault."""

import json

# The kinds of the objects of these documents, by name.
KINDS = {"a": "account", "b": "account", "c": "counter", "s": "set", "q": "queue", "r": "queue", "d": "directory", "m": "max"}


def op(target, verb, *arguments, label=None, orelse=None):
    """An operation. An argument in angle brackets is a label that gives it."""
    step = {"op": [target, verb, *({"from": one[1:-1]} if str(one).startswith("<") else one for one in arguments)]}
    step.update({"as": label} if label else {})
    step.update({"else": orelse} if orelse else {})
    return step


BALANCE = op("a", "balance", label="x")
DEQ = op("q", "deq", label="x")
LOOKUP = op("d", "lookup", "k", label="x")
MOVE = [BALANCE, op("a", "withdraw", "<x>"), op("b", "deposit", "<x>")]
SEAT = [op("q", "deq", label="x"), op("d", "put", "<x>", "seat")]

# The objects' starts, the transactions, and the report.
AMOUNTS = [
    ({"a": 70, "b": 5}, [MOVE],
     "T 1 committed|O 1.1 a balance = 70|O 1.2 a withdraw 70 = ok|O 1.3 b deposit 70 = ok|= a account 0|= b account 75|rounds 1"),
    ({"a": 0, "b": 5}, [MOVE], "T 1 aborted|O 1.1 a balance = 0|A 1.2|= a account 0|= b account 5|rounds 1"),
    ({"a": 10 ** 12, "b": 0}, [MOVE],
     "T 1 committed|O 1.1 a balance = 1000000000000|O 1.2 a withdraw 1000000000000 = ok|O 1.3 b deposit 1000000000000 = ok|"
     "= a account 0|= b account 1000000000000|rounds 1"),
    ({"a": 10 ** 12 + 1, "b": 0}, [MOVE],
     "T 1 aborted|O 1.1 a balance = 1000000000001|A 1.2|= a account 1000000000001|= b account 0|rounds 1"),
    ({"a": 1, "b": 0}, [MOVE],
     "T 1 committed|O 1.1 a balance = 1|O 1.2 a withdraw 1 = ok|O 1.3 b deposit 1 = ok|= a account 0|= b account 1|rounds 1"),
    ({"c": 3, "m": 1}, [[op("c", "read", label="x"), op("c", "sub", "<x>"), op("m", "raise", "<x>")]],
     "T 1 committed|O 1.1 c read = 3|O 1.2 c sub 3 = ok|O 1.3 m raise 3 = ok|= c counter 0|= m max 3|rounds 1"),
    ({"c": -3, "a": 9}, [[op("c", "read", label="x"), op("a", "deposit", "<x>")]],
     "T 1 aborted|O 1.1 c read = -3|A 1.2|= c counter -3|= a account 9|rounds 1"),
    ({"s": ["x", "y"], "c": 0}, [[op("s", "size", label="n"), op("c", "add", "<n>")]],
     "T 1 committed|O 1.1 s size = 2|O 1.2 c add 2 = ok|= s set {x y}|= c counter 2|rounds 1"),
    ({"s": [], "c": 0}, [[op("s", "size", label="n"), op("c", "add", "<n>")]],
     "T 1 aborted|O 1.1 s size = 0|A 1.2|= s set {}|= c counter 0|rounds 1"),
    ({"q": ["x", "y", "x"], "m": 5}, [[op("q", "length", label="n"), op("m", "raise", "<n>")]],
     "T 1 committed|O 1.1 q length = 3|O 1.2 m raise 3 = ok|= q queue [x y x]|= m max 5|rounds 1"),
    ({"m": 7, "a": 1}, [[op("m", "top", label="n"), op("a", "deposit", "<n>"), op("a", "withdraw", "<n>")]],
     "T 1 committed|O 1.1 m top = 7|O 1.2 a deposit 7 = ok|O 1.3 a withdraw 7 = ok|= m max 7|= a account 1|rounds 1"),
    ({"m": 0, "a": 1}, [[op("m", "top", label="n"), op("a", "deposit", "<n>")]],
     "T 1 aborted|O 1.1 m top = 0|A 1.2|= m max 0|= a account 1|rounds 1"),
    ({"a": 5, "b": 3}, [[BALANCE, op("b", "withdraw", "<x>", label="y"), {"if": "y", "is": "no", "then": [op("a", "deposit", 1)]}]],
     "T 1 committed|O 1.1 a balance = 5|O 1.2 b withdraw 5 = no|I 1.3 then|O 1.3.t.1 a deposit 1 = ok|= a account 6|= b account 3|"
     "rounds 1"),
]

ITEMS = [
    ({"q": ["x", "y"], "r": []}, [[DEQ, op("r", "enq", "<x>")]],
     "T 1 committed|O 1.1 q deq = got x|O 1.2 r enq x = ok|= q queue [y]|= r queue [x]|rounds 1"),
    ({"q": [], "r": ["y"]}, [[DEQ, op("r", "enq", "<x>")]],
     "T 1 aborted|O 1.1 q deq = empty|A 1.2|= q queue []|= r queue [y]|rounds 1"),
    ({"q": ["x"], "s": []}, [[DEQ, op("s", "insert", "<x>"), op("s", "has", "<x>"), op("s", "remove", "<x>")]],
     "T 1 committed|O 1.1 q deq = got x|O 1.2 s insert x = added|O 1.3 s has x = yes|O 1.4 s remove x = removed|= q queue []|"
     "= s set {}|rounds 1"),
    ({"q": ["k"], "d": []}, [[DEQ, op("d", "bind", "<x>", "v"), op("d", "lookup", "<x>"), op("d", "unbind", "<x>")]],
     "T 1 committed|O 1.1 q deq = got k|O 1.2 d bind k v = bound|O 1.3 d lookup k = found v|O 1.4 d unbind k = gone|= q queue []|"
     "= d directory {}|rounds 1"),
    ({"q": ["v"], "d": []}, [[DEQ, op("d", "bind", "k", "<x>"), op("d", "put", "<x>", "<x>")]],
     "T 1 committed|O 1.1 q deq = got v|O 1.2 d bind k v = bound|O 1.3 d put v v = ok|= q queue []|= d directory {v:v k:v}|rounds 1"),
    ({"d": [["k", "v"]], "q": []}, [[LOOKUP, op("q", "enq", "<x>")]],
     "T 1 committed|O 1.1 d lookup k = found v|O 1.2 q enq v = ok|= d directory {k:v}|= q queue [v]|rounds 1"),
    ({"d": [["l", "v"]], "q": []}, [[LOOKUP, op("q", "enq", "<x>")]],
     "T 1 aborted|O 1.1 d lookup k = missing|A 1.2|= d directory {l:v}|= q queue []|rounds 1"),
    ({"d": [["k", "l"], ["l", "v"]], "q": []}, [[LOOKUP, op("d", "lookup", "<x>", label="y"), op("q", "enq", "<y>")]],
     "T 1 committed|O 1.1 d lookup k = found l|O 1.2 d lookup l = found v|O 1.3 q enq v = ok|= d directory {k:l l:v}|= q queue [v]|"
     "rounds 1"),
    ({"q": ["x"], "r": ["y"], "d": []}, [[DEQ, op("r", "deq", label="y"), op("d", "put", "<x>", "<y>")]],
     "T 1 committed|O 1.1 q deq = got x|O 1.2 r deq = got y|O 1.3 d put x y = ok|= q queue []|= r queue []|= d directory {x:y}|rounds 1"),
    ({"q": [], "r": ["y"], "d": []}, [[DEQ, op("r", "deq", label="y"), op("d", "put", "<x>", "<y>")]],
     "T 1 aborted|O 1.1 q deq = empty|O 1.2 r deq = got y|A 1.3|= q queue []|= r queue [y]|= d directory {}|rounds 1"),
    ({"q": ["x"], "r": [], "d": []}, [[DEQ, op("r", "deq", label="y"), op("d", "put", "<x>", "<y>")]],
     "T 1 aborted|O 1.1 q deq = got x|O 1.2 r deq = empty|A 1.3|= q queue [x]|= r queue []|= d directory {}|rounds 1"),
]

# Where labels are seen: branches, handlers, bodies, children, and a step's own and an earlier one.
PLACES = [
    ({"a": 2, "b": 0}, [[BALANCE, {"if": "x", "atleast": 1, "then": MOVE[1:]}]],
     "T 1 committed|O 1.1 a balance = 2|I 1.2 then|O 1.2.t.1 a withdraw 2 = ok|O 1.2.t.2 b deposit 2 = ok|= a account 0|= b account 2|"
     "rounds 1"),
    ({"a": 0, "b": 0}, [[BALANCE, {"if": "x", "atleast": 1, "then": MOVE[1:]}]],
     "T 1 committed|O 1.1 a balance = 0|I 1.2 else|= a account 0|= b account 0|rounds 1"),
    ({"a": 4, "b": 0}, [[BALANCE, {"if": "x", "atleast": 5, "then": [], "else": MOVE[2:]}]],
     "T 1 committed|O 1.1 a balance = 4|I 1.2 else|O 1.2.e.1 b deposit 4 = ok|= a account 4|= b account 4|rounds 1"),
    ({"a": 4, "b": 0}, [[BALANCE, {"sub": [op("a", "deposit", 9), {"abort": True}], "handler": MOVE[1:]}]],
     "T 1 committed|O 1.1 a balance = 4|S 1.2 aborted|O 1.2.b.1 a deposit 9 = ok|A 1.2.b.2|O 1.2.h.1 a withdraw 4 = ok|"
     "O 1.2.h.2 b deposit 4 = ok|= a account 0|= b account 4|rounds 1"),
    ({"a": 4, "b": 0}, [[BALANCE, {"sub": MOVE[1:], "as": "y"}, {"if": "y", "is": "committed", "then": MOVE[2:]}]],
     "T 1 committed|O 1.1 a balance = 4|S 1.2 committed|O 1.2.b.1 a withdraw 4 = ok|O 1.2.b.2 b deposit 4 = ok|I 1.3 then|"
     "O 1.3.t.1 b deposit 4 = ok|= a account 0|= b account 8|rounds 1"),
    ({"a": 4, "b": 0}, [[BALANCE, {"parallel": [{"sub": MOVE[1:2]}, {"sub": MOVE[2:]}]}]],
     "T 1 committed|O 1.1 a balance = 4|S 1.2.1 committed|O 1.2.1.b.1 a withdraw 4 = ok|S 1.2.2 committed|O 1.2.2.b.1 b deposit 4 = ok|"
     "= a account 0|= b account 4|rounds 1"),
    ({"a": 4, "b": 0}, [[op("a", "deposit", 1, label="w"), BALANCE, op("a", "balance", label="y"), op("b", "deposit", "<x>")]],
     "T 1 committed|O 1.1 a deposit 1 = ok|O 1.2 a balance = 5|O 1.3 a balance = 5|O 1.4 b deposit 5 = ok|= a account 5|= b account 5|"
     "rounds 1"),
    # A label after those of a parallel step, and those of a block that is left.
    ({"a": 4, "b": 7}, [[{"parallel": [{"sub": [op("b", "balance", label="i")], "as": "p"}, {"sub": [], "as": "q"}]}, BALANCE,
                         {"sub": [op("b", "balance", label="y"), op("a", "deposit", "<y>"), op("b", "deposit", "<x>")]}, MOVE[1]]],
     "T 1 committed|S 1.1.1 committed|O 1.1.1.b.1 b balance = 7|S 1.1.2 committed|O 1.2 a balance = 4|S 1.3 committed|"
     "O 1.3.b.1 b balance = 7|O 1.3.b.2 a deposit 7 = ok|O 1.3.b.3 b deposit 4 = ok|O 1.4 a withdraw 4 = ok|= a account 7|= b account 11|"
     "rounds 1"),
    # An inner label of the same name as one that is no longer seen.
    ({"a": 4, "b": 0}, [[{"sub": [BALANCE]}, op("b", "deposit", 7), op("b", "balance", label="x"), op("a", "deposit", "<x>")]],
     "T 1 committed|S 1.1 committed|O 1.1.b.1 a balance = 4|O 1.2 b deposit 7 = ok|O 1.3 b balance = 7|O 1.4 a deposit 7 = ok|"
     "= a account 11|= b account 7|rounds 1"),
    # Where no call can be made, the innermost block aborts.
    ({"a": 0, "b": 5}, [[{"sub": MOVE}, op("b", "deposit", 1)]],
     "T 1 committed|S 1.1 aborted|O 1.1.b.1 a balance = 0|A 1.1.b.2|O 1.2 b deposit 1 = ok|= a account 0|= b account 6|rounds 1"),
    ({"a": 0, "b": 5}, [[{"sub": MOVE, "handler": [op("b", "deposit", 2)]}]],
     "T 1 committed|S 1.1 aborted|O 1.1.b.1 a balance = 0|A 1.1.b.2|O 1.1.h.1 b deposit 2 = ok|= a account 0|= b account 7|rounds 1"),
    ({"a": 0, "b": 5}, [[{"sub": MOVE, "handlers": {"r": []}}]],
     "T 1 aborted|S 1.1 aborted|O 1.1.b.1 a balance = 0|A 1.1.b.2|= a account 0|= b account 5|rounds 1"),
    ({"a": 0, "b": 5}, [[BALANCE, {"if": "x", "atleast": 0, "then": MOVE[1:]}, op("b", "deposit", 1)]],
     "T 1 aborted|O 1.1 a balance = 0|I 1.2 then|A 1.2.t.1|= a account 0|= b account 5|rounds 1"),
    ({"a": 0, "b": 5}, [[BALANCE, {"parallel": [{"sub": MOVE[1:], "handlers": {}}, {"sub": [op("b", "deposit", 1)]}]}]],
     "T 1 aborted|O 1.1 a balance = 0|S 1.2.1 aborted|A 1.2.1.b.1|= a account 0|= b account 5|rounds 1"),
    ({"a": 0, "b": 5}, [[BALANCE, {"parallel": [{"sub": MOVE[1:]}, {"sub": [op("b", "deposit", 1)]}]}]],
     "T 1 committed|O 1.1 a balance = 0|S 1.2.1 aborted|A 1.2.1.b.1|S 1.2.2 committed|O 1.2.2.b.1 b deposit 1 = ok|= a account 0|"
     "= b account 6|rounds 1"),
    ({"a": 0, "b": 5}, [[BALANCE, {"sub": [{"abort": True}], "handler": MOVE[1:]}, op("b", "deposit", 1)]],
     "T 1 aborted|O 1.1 a balance = 0|S 1.2 aborted|A 1.2.b.1|A 1.2.h.1|= a account 0|= b account 5|rounds 1"),
]

# `else` after each operation that can refuse, and where it doesn't.
REFUSED = [
    ({"a": 5}, [[op("a", "withdraw", 6, orelse=True)]], "T 1 aborted|O 1.1 a withdraw 6 = no|A 1.1|= a account 5|rounds 1"),
    ({"a": 5}, [[op("a", "withdraw", 6, orelse="poor"), op("a", "deposit", 1)]],
     "T 1 aborted poor|O 1.1 a withdraw 6 = no|A 1.1 poor|= a account 5|rounds 1"),
    ({"a": 5}, [[op("a", "withdraw", 5, orelse="poor"), op("a", "deposit", 1)]],
     "T 1 committed|O 1.1 a withdraw 5 = ok|O 1.2 a deposit 1 = ok|= a account 1|rounds 1"),
    ({"s": ["x"]}, [[op("s", "insert", "x", orelse="twice")]],
     "T 1 aborted twice|O 1.1 s insert x = present|A 1.1 twice|= s set {x}|rounds 1"),
    ({"s": ["x"]}, [[op("s", "insert", "y", orelse="twice")]], "T 1 committed|O 1.1 s insert y = added|= s set {x y}|rounds 1"),
    ({"s": ["x"]}, [[op("s", "remove", "y", orelse="gone")]],
     "T 1 aborted gone|O 1.1 s remove y = absent|A 1.1 gone|= s set {x}|rounds 1"),
    ({"s": ["x"]}, [[op("s", "remove", "x", orelse="gone")]], "T 1 committed|O 1.1 s remove x = removed|= s set {}|rounds 1"),
    ({"s": ["x"]}, [[op("s", "has", "y", orelse=True)]], "T 1 aborted|O 1.1 s has y = no|A 1.1|= s set {x}|rounds 1"),
    ({"s": ["x"]}, [[op("s", "has", "x", orelse=True)]], "T 1 committed|O 1.1 s has x = yes|= s set {x}|rounds 1"),
    ({"q": []}, [[op("q", "deq", orelse="nobody")]], "T 1 aborted nobody|O 1.1 q deq = empty|A 1.1 nobody|= q queue []|rounds 1"),
    ({"q": ["x"]}, [[op("q", "deq", orelse="nobody")]], "T 1 committed|O 1.1 q deq = got x|= q queue []|rounds 1"),
    ({"d": [["k", "v"]]}, [[op("d", "bind", "k", "w", orelse="held")]],
     "T 1 aborted held|O 1.1 d bind k w = taken|A 1.1 held|= d directory {k:v}|rounds 1"),
    ({"d": [["k", "v"]]}, [[op("d", "bind", "l", "w", orelse="held")]],
     "T 1 committed|O 1.1 d bind l w = bound|= d directory {k:v l:w}|rounds 1"),
    ({"d": [["k", "v"]]}, [[op("d", "unbind", "l", orelse=True)]],
     "T 1 aborted|O 1.1 d unbind l = missing|A 1.1|= d directory {k:v}|rounds 1"),
    ({"d": [["k", "v"]]}, [[op("d", "unbind", "k", orelse=True)]], "T 1 committed|O 1.1 d unbind k = gone|= d directory {}|rounds 1"),
    ({"d": [["k", "v"]]}, [[op("d", "lookup", "l", orelse="unknown")]],
     "T 1 aborted unknown|O 1.1 d lookup l = missing|A 1.1 unknown|= d directory {k:v}|rounds 1"),
    ({"d": [["k", "v"]]}, [[op("d", "lookup", "k", orelse="unknown")]],
     "T 1 committed|O 1.1 d lookup k = found v|= d directory {k:v}|rounds 1"),
    # Those that never refuse.
    ({"a": 0}, [[op("a", "deposit", 1, orelse=True), op("a", "balance", orelse=True)]],
     "T 1 committed|O 1.1 a deposit 1 = ok|O 1.2 a balance = 1|= a account 1|rounds 1"),
    ({"c": 0}, [[op("c", "add", 1, orelse=True), op("c", "sub", 2, orelse=True), op("c", "read", orelse=True)]],
     "T 1 committed|O 1.1 c add 1 = ok|O 1.2 c sub 2 = ok|O 1.3 c read = -1|= c counter -1|rounds 1"),
    ({"s": []}, [[op("s", "size", orelse=True)]], "T 1 committed|O 1.1 s size = 0|= s set {}|rounds 1"),
    ({"q": []}, [[op("q", "enq", "x", orelse=True), op("q", "length", orelse=True)]],
     "T 1 committed|O 1.1 q enq x = ok|O 1.2 q length = 1|= q queue [x]|rounds 1"),
    ({"d": []}, [[op("d", "put", "k", "v", orelse=True)]], "T 1 committed|O 1.1 d put k v = ok|= d directory {k:v}|rounds 1"),
    ({"m": 3}, [[op("m", "raise", 2, orelse=True), op("m", "top", orelse=True)]],
     "T 1 committed|O 1.1 m raise 2 = ok|O 1.2 m top = 3|= m max 3|rounds 1"),
]

# `else` with handlers, labels, branches and children, and where a label gives no argument.
ELSE = [
    ({"a": 5}, [[{"sub": [op("a", "deposit", 1), op("a", "withdraw", 9, orelse="poor")], "handlers": {"poor": [op("a", "deposit", 2)]}}]],
     "T 1 committed|S 1.1 aborted poor|O 1.1.b.1 a deposit 1 = ok|O 1.1.b.2 a withdraw 9 = no|A 1.1.b.2 poor|"
     "O 1.1.h:poor.1 a deposit 2 = ok|= a account 7|rounds 1"),
    ({"a": 5}, [[{"sub": [op("a", "withdraw", 9, orelse="poor")], "handlers": {"rich": []}}]],
     "T 1 aborted poor|S 1.1 aborted poor|O 1.1.b.1 a withdraw 9 = no|A 1.1.b.1 poor|= a account 5|rounds 1"),
    ({"a": 5}, [[{"sub": [op("a", "withdraw", 9, orelse=True)], "as": "y"}, {"if": "y", "is": "aborted", "then": [op("a", "deposit", 1)]}]],
     "T 1 committed|S 1.1 aborted|O 1.1.b.1 a withdraw 9 = no|A 1.1.b.1|I 1.2 then|O 1.2.t.1 a deposit 1 = ok|= a account 6|rounds 1"),
    ({"a": 5}, [[op("a", "withdraw", 2, label="y", orelse="poor"), {"if": "y", "is": "ok", "then": [op("a", "balance")]}]],
     "T 1 committed|O 1.1 a withdraw 2 = ok|I 1.2 then|O 1.2.t.1 a balance = 3|= a account 3|rounds 1"),
    ({"a": 5}, [[op("a", "balance", label="y"), {"if": "y", "atleast": 5, "then": [op("a", "withdraw", 6, orelse="poor")]},
                 op("a", "deposit", 1)]],
     "T 1 aborted poor|O 1.1 a balance = 5|I 1.2 then|O 1.2.t.1 a withdraw 6 = no|A 1.2.t.1 poor|= a account 5|rounds 1"),
    ({"a": 5, "b": 0}, [[{"parallel": [{"sub": [op("a", "withdraw", 6, orelse="poor")], "handlers": {}}, {"sub": [op("b", "deposit", 1)]}]}]],
     "T 1 aborted poor|S 1.1.1 aborted poor|O 1.1.1.b.1 a withdraw 6 = no|A 1.1.1.b.1 poor|= a account 5|= b account 0|rounds 1"),
    ({"a": 0, "b": 5}, [[BALANCE, op("b", "withdraw", "<x>", orelse="nothing"), op("b", "deposit", 1)]],
     "T 1 aborted nothing|O 1.1 a balance = 0|A 1.2 nothing|= a account 0|= b account 5|rounds 1"),
    ({"a": 9, "b": 5}, [[BALANCE, op("b", "withdraw", "<x>", orelse="poor"), op("b", "deposit", 1)]],
     "T 1 aborted poor|O 1.1 a balance = 9|O 1.2 b withdraw 9 = no|A 1.2 poor|= a account 9|= b account 5|rounds 1"),
    ({"q": [], "r": ["y"]}, [[DEQ, {"sub": [op("r", "enq", "<x>", orelse="nobody")], "handlers": {"nobody": [op("r", "deq")]}}]],
     "T 1 committed|O 1.1 q deq = empty|S 1.2 aborted nobody|A 1.2.b.1 nobody|O 1.2.h:nobody.1 r deq = got y|= q queue []|= r queue []|"
     "rounds 1"),
    ({"q": ["y"], "s": ["y"]}, [[op("q", "deq", label="x", orelse="nobody"), op("s", "insert", "<x>", orelse="twice")]],
     "T 1 aborted twice|O 1.1 q deq = got y|O 1.2 s insert y = present|A 1.2 twice|= q queue [y]|= s set {y}|rounds 1"),
]

# Several transactions, and the rounds that they take.
ROUNDS = [
    # Who is first in the queue gets the seat. Each dequeue waits for the earlier ones, and the length for the last of them.
    ({"q": ["ann", "bob", "cid"], "d": []}, [SEAT, SEAT, SEAT, [op("q", "length")]],
     "T 1 committed|O 1.1 q deq = got ann|O 1.2 d put ann seat = ok|T 2 committed|O 2.1 q deq = got bob|O 2.2 d put bob seat = ok|"
     "T 3 committed|O 3.1 q deq = got cid|O 3.2 d put cid seat = ok|T 4 committed|O 4.1 q length = 0|= q queue []|"
     "= d directory {ann:seat bob:seat cid:seat}|rounds 4"),
    # Nobody is left for the third. It leaves nothing, so the fourth shares its round.
    ({"q": ["ann", "bob"], "d": []}, [SEAT, SEAT, SEAT, [op("q", "enq", "cid")]],
     "T 1 committed|O 1.1 q deq = got ann|O 1.2 d put ann seat = ok|T 2 committed|O 2.1 q deq = got bob|O 2.2 d put bob seat = ok|"
     "T 3 aborted|O 3.1 q deq = empty|A 3.2|T 4 committed|O 4.1 q enq cid = ok|= q queue [cid]|= d directory {ann:seat bob:seat}|rounds 3"),
    # A balance waits for the deposits before it, and so does what is moved.
    ({"a": 1, "b": 0}, [[op("a", "deposit", 2)], MOVE],
     "T 1 committed|O 1.1 a deposit 2 = ok|T 2 committed|O 2.1 a balance = 3|O 2.2 a withdraw 3 = ok|O 2.3 b deposit 3 = ok|"
     "= a account 0|= b account 3|rounds 2"),
    # What an earlier run gave is not performed: the call is made anew in each run.
    ({"q": ["x", "y"], "r": []}, [[op("q", "deq")], [DEQ, op("r", "enq", "<x>")]],
     "T 1 committed|O 1.1 q deq = got x|T 2 committed|O 2.1 q deq = got y|O 2.2 r enq y = ok|= q queue []|= r queue [y]|rounds 2"),
    # Two covered withdrawals don't share a round, and the second is then refused.
    ({"a": 5}, [[op("a", "withdraw", 3, orelse="poor")], [op("a", "withdraw", 3, orelse="poor")]],
     "T 1 committed|O 1.1 a withdraw 3 = ok|T 2 aborted poor|O 2.1 a withdraw 3 = no|A 2.1 poor|= a account 2|rounds 2"),
    # What aborts leaves nothing, so the transaction after it shares its round.
    ({"a": 0, "b": 0}, [MOVE, [op("b", "balance")]],
     "T 1 aborted|O 1.1 a balance = 0|A 1.2|T 2 committed|O 2.1 b balance = 0|= a account 0|= b account 0|rounds 1"),
]

READ = '{"op":["a","balance"],"as":"x"}'
TAKE = '{"op":["q","deq"],"as":"x"}'
LOOK = '{"op":["d","lookup","k"],"as":"x"}'

# Steps after one of these three, or alone, in a document of version 5, and the fault. None stands for steps that are read.
STEPS = [
    (READ + ',{"op":["a","deposit",{"from":"x"}]}', None),
    (READ + ',{"op":["a","deposit",{"from":"x"}],"as":"y","else":"r"}', None),
    (READ + ',{"op":["a","deposit",{"from":"y"}]}', 8),
    ('{"op":["a","deposit",{"from":"x"}]},' + READ, 8),
    ('{"op":["a","deposit",{"from":"x"}],"as":"x"}', 8),
    ('{"sub":[%s]},{"op":["a","deposit",{"from":"x"}]}' % READ, 8),
    (READ + ',{"if":"x","atleast":0,"then":[{"op":["a","balance"],"as":"y"}]},{"op":["a","deposit",{"from":"y"}]}', 8),
    ('{"parallel":[{"sub":[%s]},{"sub":[{"op":["a","deposit",{"from":"x"}]}]}]}' % READ, 8),
    ('{"parallel":[{"sub":[],"as":"y"},{"sub":[{"op":["a","deposit",{"from":"y"}]}]}]}', 8),
    ('{"sub":[%s],"handler":[{"op":["a","deposit",{"from":"x"}]}]}' % READ, 8),
    ('{"sub":[],"as":"y"},{"op":["a","deposit",{"from":"y"}]}', 10),
    ('{"sub":[],"as":"y"},{"op":["q","enq",{"from":"y"}]}', 10),
    ('{"parallel":[{"sub":[],"as":"y"}]},{"op":["a","deposit",{"from":"y"}]}', 10),
    ('{"op":["a","deposit",1],"as":"y"},{"op":["a","deposit",{"from":"y"}]}', 10),
    (READ + ',{"op":["q","enq",{"from":"x"}]}', 10),
    (READ + ',{"op":["d","put",{"from":"x"},"v"]}', 10),
    (READ + ',{"op":["d","put","k",{"from":"x"}]}', 10),
    (TAKE + ',{"op":["a","deposit",{"from":"x"}]}', 10),
    (LOOK + ',{"op":["a","deposit",{"from":"x"}]}', 10),
    (TAKE + ',{"op":["d","put",{"from":"x"},{"from":"x"}]}', None),
    (TAKE + ',{"op":["d","put","k",{"from":"y"}]}', 8),
    (TAKE + ',{"op":["d","put",{"from":"y"},{"from":"x"}]}', 8),
    # The first argument comes first.
    (TAKE + ',{"op":["d","put","no name",{"from":"y"}]}', 3),
    (TAKE + ',{"op":["d","put",{"from":"y"},"no name"]}', 8),
    (READ + ',{"op":["a","deposit",{}]}', 7),
    (READ + ',{"op":["a","deposit",{"from":3}]}', 7),
    (READ + ',{"op":["a","deposit",{"from":null}]}', 7),
    (READ + ',{"op":["a","deposit",{"From":"x"}]}', 7),
    (READ + ',{"op":["a","deposit",{"from":"x","to":"x"}]}', 7),
    (READ + ',{"op":["a","deposit",["x"]]}', 7),
    (READ + ',{"op":["a","deposit",{"from":"x"},1]}', 7),
    (READ + ',{"op":["a","balance",{"from":"x"}]}', 7),
    (READ + ',{"op":["a",{"from":"x"},1]}', 2),
    (READ + ',{"op":[{"from":"x"},"balance"]}', 2),
    # A member named twice counts by its last.
    (READ + ',{"op":["a","deposit",{"from":"y","from":"x"}]}', None),
    # `else`.
    ('{"op":["a","balance"],"else":true}', None),
    ('{"op":["a","balance"],"else":"r"}', None),
    ('{"op":["a","balance"],"else":false}', 2),
    ('{"op":["a","balance"],"else":null}', 2),
    ('{"op":["a","balance"],"else":[]}', 2),
    ('{"op":["a","balance"],"else":1}', 2),
    ('{"op":["a","balance"],"else":"no name"}', 3),
    ('{"op":["a","balance"],"else":""}', 3),
    ('{"op":["a","deposit",0],"else":"no name"}', 7),
    ('{"op":["b","deposit",0],"else":false}', 2),
    ('{"op":["b","deposit",0],"else":"no name"}', 5),
    # In their order: arguments, the reason of `else`, the label.
    (READ + ',{"op":["a","balance"],"as":"x","else":"no name"}', 3),
    (READ + ',{"op":["a","balance"],"as":"x","else":"r"}', 9),
    ('{"op":["a","deposit",{"from":"y"}],"else":"no name"}', 8),
    ('{"op":["a","deposit",{"from":"no name"}]}', 8),
    ('{"op":["a","deposit",{"from":"y"}],"as":7}', 2),
    # A label after those of a parallel step, and one of an outer block in an inner one.
    ('{"parallel":[{"sub":[],"as":"p"},{"sub":[],"as":"q"}]},%s,{"op":["a","deposit",{"from":"x"}]}' % READ, None),
    ('{"parallel":[{"sub":[],"as":"p"}]},%s,{"op":["a","deposit",{"from":"p"}]}' % READ, 10),
    ('{"abort":true,"else":"r"}', 2),
    ('{"sub":[],"else":[]}', 2),
]

# The same in an earlier version.
EARLIER = [
    (READ + ',{"op":["a","deposit",{"from":"x"}]}', 7),
    (READ + ',{"op":["a","deposit",{"from":"y"}]}', 7),
    (TAKE + ',{"op":["q","enq",{"from":"x"}]}', 7),
    ('{"op":["a","balance"],"else":true}', 2),
    ('{"op":["a","balance"],"else":"r"}', 2),
]

OBJECTS = '{"name":"a","kind":"account","start":9},{"name":"q","kind":"queue","start":["x"]},{"name":"d","kind":"directory","start":[]}'


def try_reports(program):
    for starts, transactions, lines in AMOUNTS + ITEMS + PLACES + REFUSED + ELSE + ROUNDS:
        objects = [{"name": name, "kind": KINDS[name], "start": start} for name, start in starts.items()]
        document = json.dumps({"ordtx": 5, "objects": objects, "transactions": transactions}).encode()
        report = (lines.replace("|", "\n") + "\n").encode()
        program.expect_report("%s of %s" % (json.dumps(transactions), starts), document, report)


def try_why(program):
    """The call that ended a round is one that its run made: here a withdrawal, and then the balance that gave its amount."""
    objects = [{"name": "a", "kind": "account", "start": 5}, {"name": "b", "kind": "account", "start": 0}]
    transactions = [[op("a", "withdraw", 3, orelse="poor")], [op("a", "withdraw", 3, orelse="poor")], MOVE]
    document = json.dumps({"ordtx": 5, "objects": objects, "transactions": transactions}).encode()
    lines = ("T 1 committed|O 1.1 a withdraw 3 = ok|T 2 aborted poor|O 2.1 a withdraw 3 = no|A 2.1 poor|T 3 committed|O 3.1 a balance = 2|"
             "O 3.2 a withdraw 2 = ok|O 3.3 b deposit 2 = ok|= a account 0|= b account 2|rounds 2|"
             "why 1 2.1 a withdraw 3 = ok after 1.1 a withdraw 3 = ok|")
    program.expect("why", ["run", "--why"], document, lines.replace("|", "\n").encode())


def try_faults(program):
    for version, steps, fault in [(5, *one) for one in STEPS] + [(version, *one) for version in (1, 4) for one in EARLIER]:
        document = ('{"ordtx":%d,"objects":[%s],"transactions":[[%s]]}' % (version, OBJECTS, steps)).encode()
        name = "version %d: %s" % (version, steps)
        if fault is None:
            program.expect(name, ["check"], document, None)
        else:
            program.expect_fault_everywhere(name, document, fault, 1)


def try_all(program):
    try_reports(program)
    try_why(program)
    try_faults(program)
