#!/usr/bin/env python3
"""Makes the journal of a double-entry ledger: `journal.py > journal.csv`, which `postings.py` reads.

Each entry has two postings of one currency, on two of the accounts. An account has the name of a plain-text ledger's, as
`Assets:Bank:0015`.
"""

import argparse
import random

GROUPS = ("Assets:Bank", "Assets:Receivable", "Liabilities:Card", "Income:Sales", "Expenses:Rent")
CURRENCIES = ("EUR", "USD")


def name(number):
    return "%s:%04d" % (GROUPS[number % len(GROUPS)], number)


def postings(chance, accounts, entries):
    """Each posting: the number of its entry, an account, a currency, and cents. Each account of a number below `entries` has one."""
    for entry in range(entries):
        currency, cents = chance.choice(CURRENCIES), chance.randrange(1, 10_000)
        yield entry + 1, name(entry % accounts), currency, cents
        yield entry + 1, name(chance.randrange(accounts)), currency, -cents


def row(entry, account, currency, cents):
    return "%d,%s,%s,%s%d.%02d\n" % (entry, account, currency, "-" * (cents < 0), abs(cents) // 100, abs(cents) % 100)


def main():
    parser = argparse.ArgumentParser(description=__doc__, formatter_class=argparse.RawTextHelpFormatter)
    parser.add_argument("--accounts", type=int, default=2_500, metavar="N")
    parser.add_argument("--entries", type=int, default=12_000, metavar="N")
    parser.add_argument("--seed", type=int, default=1)
    chosen = parser.parse_args()
    if chosen.accounts < 1:
        parser.error("there is at least 1 account")
    print("transaction,account,currency,amount")
    for posting in postings(random.Random(chosen.seed), chosen.accounts, chosen.entries):
        print(row(*posting), end="")


if __name__ == "__main__":
    main()
