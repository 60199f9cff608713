#!/usr/bin/env python3
"""Makes a document of SmallBank, a bank that is used to compare databases: `smallbank.py > smallbank.json`.

Each customer has a savings and a checking account. Six kinds of transactions (Alomari, Cahill, Fekete, Röhm: The Cost of
Serializability on Platforms That Use Snapshot Isolation, ICDE 2008) are drawn at random:

- Balance: reads both accounts.
- DepositChecking: pays into checking.
- TransactSavings: changes savings, and aborts where they would go below 0.
- Amalgamate: moves all of one customer's money to the checking account of another.
- WriteCheck: takes a check's amount from checking, and 1 more where both accounts together don't cover it.
- SendPayment: moves an amount between two checking accounts, and aborts where the payer has too little.

Checking may go below 0. Amounts are 1 or more, so a checking account holds OFFSET more than its balance.
"""

import argparse
import random
import sys

from reading import Fault, Field
from writing import Document

# What a checking account holds where its balance is 0.
OFFSET = 10 ** 9
OPENING = (10_000, 50_000)
NOWHERE = Field("", 0, 0)


def op(target, verb, *arguments, **members):
    return {"op": [target, verb, *arguments], **members}


def reply(label):
    """An argument: what the reply of a label has."""
    return {"from": label}


def balance(one):
    return [op(one.savings, "balance"), op(one.checking, "balance")]


def deposit_checking(one, amount):
    return [op(one.checking, "deposit", amount)]


def transact_savings(one, amount):
    return [op(one.savings, "deposit", amount) if amount > 0 else op(one.savings, "withdraw", -amount, **{"else": "short"})]


def amalgamate(one, other):
    savings = [op(one.savings, "withdraw", reply("s")), op(other.checking, "deposit", reply("s"))]
    return [op(one.savings, "balance", **{"as": "s"}), {"if": "s", "atleast": 1, "then": savings},
            op(one.checking, "balance", **{"as": "c"}),
            op(one.checking, "withdraw", reply("c")), op(one.checking, "deposit", OFFSET),
            op(other.checking, "deposit", reply("c")), op(other.checking, "withdraw", OFFSET)]


def write_check(one, amount):
    """The sum of both accounts is made on a third one, in a subaction that always aborts: nothing is left there."""
    total = [op(one.savings, "balance", **{"as": "s"}), {"if": "s", "atleast": 1, "then": [op("sum", "deposit", reply("s"))]},
             op(one.checking, "balance", **{"as": "c"}), op("sum", "deposit", reply("c")),
             op("sum", "withdraw", OFFSET + amount, **{"else": "short"}), {"abort": "covered"}]
    return [{"sub": total, "handlers": {"covered": [op(one.checking, "withdraw", amount)],
                                        "short": [op(one.checking, "withdraw", amount + 1)]}}]


def send_payment(one, other, amount):
    return [op(one.checking, "balance", **{"as": "c"}),
            {"if": "c", "atleast": OFFSET + amount, "then": [op(one.checking, "withdraw", amount), op(other.checking, "deposit", amount)],
             "else": [{"abort": "short"}]}]


class Customer:
    """The names of a customer's accounts."""
    def __init__(self, number):
        self.savings, self.checking = "savings-%d" % number, "checking-%d" % number


def drawn(chance, count, customers, hot):
    """The function that makes the steps, the numbers of its customers, and its amount if it has one. Nine of ten are of `hot` customers."""
    for _ in range(count):
        pair = chance.sample(range(hot if hot and chance.random() < 0.9 else customers), 2)
        kind = chance.choice((balance, deposit_checking, transact_savings, amalgamate, write_check, send_payment))
        sign = chance.choice((1, -1)) if kind is transact_savings else 1
        amount = () if kind in (balance, amalgamate) else (sign * chance.randrange(1, 20_000),)
        yield kind, pair if kind in (amalgamate, send_payment) else pair[:1], amount


def document_of(openings, transactions):
    """The document of customers with these openings of savings and checking."""
    document, all_customers = Document(), [Customer(number) for number in range(len(openings))]
    for one, (savings, checking) in zip(all_customers, openings):
        document.object(NOWHERE, one.savings, "account", savings)
        document.object(NOWHERE, one.checking, "account", OFFSET + checking)
    document.object(NOWHERE, "sum", "account", 0)
    for kind, customers, amount in transactions:
        document.add(NOWHERE, document.begin(NOWHERE), *kind(*(all_customers[number] for number in customers), *amount))
    return document.text()


def main():
    parser = argparse.ArgumentParser(description=__doc__, formatter_class=argparse.RawTextHelpFormatter)
    parser.add_argument("--transactions", type=int, default=20, metavar="N")
    parser.add_argument("--customers", type=int, default=4, metavar="N", help="at least 2")
    parser.add_argument("--hot", type=int, default=0, metavar="N", help="so many customers, 2 or more, have nine of ten transactions")
    parser.add_argument("--seed", type=int, default=1)
    chosen = parser.parse_args()
    if chosen.customers < 2 or chosen.hot and not 2 <= chosen.hot <= chosen.customers:
        parser.error("there are at least 2 customers, and at least 2 and at most all of them are hot")
    chance = random.Random(chosen.seed)
    openings = [(chance.randint(*OPENING), chance.randint(*OPENING)) for _ in range(chosen.customers)]
    try:
        print(document_of(openings, drawn(chance, chosen.transactions, chosen.customers, chosen.hot)), end="")
    except Fault as fault:
        sys.exit("smallbank.py: %s" % str(fault).partition(": ")[2])


if __name__ == "__main__":
    main()
