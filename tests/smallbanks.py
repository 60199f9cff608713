"""`examples/smallbank.py`: its documents end as the same rules in Python, and each transaction has the same outcome."""

import random
import subprocess
import sys

from converters import EXAMPLES

sys.path.insert(0, str(EXAMPLES))
import smallbank  # noqa: E402

TRANSACTIONS, CUSTOMERS, SEED = 10_000, 500, 7


class Bank:
    """The rules over plain numbers: savings and checking of each customer."""

    def __init__(self, openings):
        self.savings, self.checking = map(list, zip(*openings))

    def perform(self, kind, customers, amount):
        """Whether the transaction commits. One that doesn't changes nothing."""
        one, (value, *_) = customers[0], (*amount, 0)
        if kind is smallbank.deposit_checking:
            self.checking[one] += value
        elif kind is smallbank.transact_savings:
            if self.savings[one] + value < 0:
                return False
            self.savings[one] += value
        elif kind is smallbank.amalgamate:
            self.checking[customers[1]] += self.savings[one] + self.checking[one]
            self.savings[one] = self.checking[one] = 0
        elif kind is smallbank.write_check:
            self.checking[one] -= value if self.savings[one] + self.checking[one] >= value else value + 1
        elif kind is smallbank.send_payment:
            if self.checking[one] < value:
                return False
            self.checking[one] -= value
            self.checking[customers[1]] += value
        return True

    def lines(self):
        for number, (savings, checking) in enumerate(zip(self.savings, self.checking)):
            yield "= savings-%d account %d" % (number, savings)
            yield "= checking-%d account %d" % (number, smallbank.OFFSET + checking)
        yield "= sum account 0"


def try_sample(program):
    """The document beside the script is the one that it makes without options."""
    made = subprocess.run([sys.executable, str(EXAMPLES / "smallbank.py")], stdout=subprocess.PIPE, check=True).stdout
    program.compare("smallbank.json", [], (made,), ((EXAMPLES / "smallbank.json").read_bytes(),))


def try_all(program):
    try_sample(program)
    for hot in (0, 10):
        chance = random.Random(SEED)
        openings = [(chance.randint(*smallbank.OPENING), chance.randint(*smallbank.OPENING)) for _ in range(CUSTOMERS)]
        transactions = list(smallbank.drawn(chance, TRANSACTIONS, CUSTOMERS, hot))
        bank = Bank(openings)
        outcomes = [bank.perform(*one) for one in transactions]
        wanted = (["committed" if one else "aborted" for one in outcomes], list(bank.lines()))
        document = smallbank.document_of(openings, transactions).encode()
        for words in (["serial"], ["run"]):
            out, status, err = program.run(words, document)
            lines = out.decode().splitlines()
            found = ([line.split()[2] for line in lines if line.startswith("T ")], [line for line in lines if line.startswith("= ")])
            program.compare("SmallBank, hot %d" % hot, words, (found, status, err), (wanted, 0, b""))
        program.compare("SmallBank, hot %d, has both outcomes" % hot, [], (set(outcomes),), ({True, False},))
