#!/usr/bin/env python3
"""Makes a document of account postings: `postings.py postings.csv > postings.json`.

The header says which form a file has. Columns `id`, `date` and `text` may be there, too, and are passed over.

- `payer`, `paid`, `amount`: a row is a transaction of two accounts. It aborts for the reason `uncovered` where the payer has
  too little. A row without a payer is an opening balance. A negative amount is paid the other way.
- `transaction`, `account`, `currency`, `amount`: the rows of a transaction follow each other, and their amounts sum to 0 in
  each currency. An amount is what the account gets. A row without a transaction is an opening balance. An account is a
  counter, which may go below 0. With `--covered ACCOUNT` it may not, and a transaction aborts for the reason `uncovered`.
"""

import itertools
import re

from reading import Fault, Field, convert, smallest
from tables import table
from writing import MOST_AMOUNT, MOST_START, Document, Names

PASSED_OVER = ("id", "date", "text")
PAYMENTS = ("payer", "paid", "amount")
ENTRIES = ("transaction", "account", "currency", "amount")

# How many digits after the point the smallest unit of a currency has (ISO 4217), where it isn't 2.
DIGITS = dict.fromkeys("BIF CLP DJF GNF ISK JPY KMF KRW PYG RWF UGX UYI VND VUV XAF XOF XPF".split(), 0)
DIGITS.update(dict.fromkeys("BHD IQD JOD KWD LYD OMR TND".split(), 3))


def moved(one, amount, label):
    """The steps by which an object gets an amount. One of 0 is none in a document."""
    if one["kind"] == "counter":
        return [{"op": [one["name"], "add" if amount > 0 else "sub", abs(amount)]}] * (amount != 0)
    if amount >= 0:
        return [{"op": [one["name"], "deposit", amount]}] * (amount > 0)
    withdrawal = {"op": [one["name"], "withdraw", -amount], "as": label}
    return [withdrawal, {"if": label, "is": "no", "then": [{"abort": "uncovered"}]}]


def payments(document, names, table):
    """Each row is a transaction, also with an amount of 0, so that the rows keep their numbers."""
    for payer, paid, field in table:
        if not paid.text:
            raise Fault(paid, "nobody is paid")
        amount = smallest(field, MOST_AMOUNT if payer.text else MOST_START)
        one = document.object(paid, names.of(paid), "account", 0)
        if not payer.text:
            document.open(field, one, amount)
            continue
        other, block = document.object(payer, names.of(payer), "account", 0), document.begin(field)
        source, target = (one, other) if amount < 0 else (other, one)
        document.add(field, block, *moved(source, -abs(amount), "paid"), *moved(target, abs(amount), None))


def entries(document, names, table, covered):
    """The rows of a transaction are its steps, each on the object of an account in a currency."""
    done, unseen = {""}, set(covered)
    for transaction, group in itertools.groupby(table, lambda row: row[0].text):
        block, sums = None, {}
        for number, (first, account, currency, field) in enumerate(group, 1):
            if block is None and transaction:
                if transaction in done:
                    raise Fault(first, "the rows of transaction %r don't follow each other" % transaction)
                block = document.begin(first)
            one = held(document, names, account, currency, covered)
            amount = smallest(field, MOST_AMOUNT if transaction else MOST_START, DIGITS.get(currency.text, 2))
            if transaction:
                document.add(field, block, *moved(one, amount, "row-%d" % number))
                sums[currency.text] = (sums.get(currency.text, (0,))[0] + amount, field)
            else:
                document.open(field, one, amount)
            unseen.discard(account.text)
        done.add(transaction)
        for currency, (total, field) in sums.items():
            if total:
                raise Fault(field, "the %s of %r sum to %d of the smallest unit, not to 0" % (currency, transaction, total))
    if unseen:
        raise SystemExit("--covered: no row has the account %r" % min(unseen))


def held(document, names, account, currency, covered):
    """The object of an account in a currency."""
    if not account.text:
        raise Fault(account, "no account")
    if not re.fullmatch("[A-Z]{3}", currency.text):
        raise Fault(currency, "no currency of three capital letters: %r" % currency.text)
    name = names.of(Field("%s-%s" % (account.text, currency.text), account.line, account.column))
    return document.object(account, name, "account" if account.text in covered else "counter", 0)


def made_of(lines, chosen):
    document, names = Document(), Names()
    form, found = table(lines, (PAYMENTS, ENTRIES), PASSED_OVER)
    if form == ENTRIES:
        entries(document, names, found, chosen.covered)
    elif chosen.covered:
        raise SystemExit("--covered is for entries: of payments each account is covered")
    else:
        payments(document, names, found)
    return document.text()


if __name__ == "__main__":
    convert(made_of, ("--covered", {"action": "append", "default": [], "metavar": "ACCOUNT",
                                    "help": "an account of entries that may not go below 0; may be given several times"}))
