"""The monitor, worked out from the whole list of tickets anew at every ticket."""
from .texts import ALLOWANCE, CHANNEL, HALTED, LEVEL, RECORD, SLIP, Fault


class Reaction:
    """What a run makes of one ticket: nothing where it is not fed, or has stalled before."""

    def __init__(self, made, stalled):
        self.made, self.stalled = made, stalled


def reactions(machine, allowance, tickets, feeds):
    """What a run makes of each ticket, and whether it stalled there. It begins with words 0."""
    words, halted, all_made = [0] * 16, False, []
    for channel, value in tickets:
        if halted or not feeds(channel):
            all_made.append(Reaction([], False))
            continue
        outcome = machine.react(words, channel, value, allowance)
        words, halted = outcome.words, outcome.stalled
        all_made.append(Reaction(outcome.made, outcome.stalled))
    return all_made


def is_beginning(a, b):
    return b[: len(a)] == a


class Setting:
    """A machine, a scheme, a sheet and an allowance: all that a monitor is opened with."""

    def __init__(self, machine, scheme, sheet, allowance):
        self.machine, self.scheme, self.sheet, self.allowance = machine, scheme, sheet, allowance

    def opening(self):
        """Refused by 14, then by 9."""
        if not 1 <= self.allowance <= 65535:
            raise Fault(ALLOWANCE)
        if any(level >= self.scheme.count for level in self.sheet.channels + self.sheet.variables):
            raise Fault(LEVEL)

    def levels(self):
        return range(self.scheme.count)

    def sees(self, level, channel):
        return self.scheme.below(self.sheet.channels[channel], level)

    def seen(self, level, made):
        return [t for t in made if self.sees(level, t[0])]

    def at(self, tickets):
        """The bare reaction and each level's shadow's, at the last of the tickets."""
        bare = reactions(self.machine, self.allowance, tickets, lambda channel: True)[-1]
        shadows = [reactions(self.machine, self.allowance, tickets, lambda channel, m=m: self.sees(m, channel))[-1] for m in self.levels()]
        return bare, shadows

    def clashes(self, level, bare, shadow):
        a, b = self.seen(level, bare.made), self.seen(level, shadow.made)
        if bare.stalled and shadow.stalled:
            return not is_beginning(a, b) and not is_beginning(b, a)
        if bare.stalled:
            return not is_beginning(a, b)
        if shadow.stalled:
            return not is_beginning(b, a)
        return a != b

    def place(self, level, bare, shadow):
        """How many bare tickets stand before the first that the level sees and its shadow does not match, and whether there is one."""
        wanted = self.seen(level, shadow.made)
        matched = 0
        for count, ticket in enumerate(bare.made):
            if self.sees(level, ticket[0]):
                if matched == len(wanted) or wanted[matched] != ticket:
                    return count, True, matched == len(wanted)
                matched += 1
        return len(bare.made), False, matched == len(wanted)

    def alarm(self, level, bare, shadow):
        count, unmatched, shadow_ended = self.place(level, bare, shadow)
        kind = "missing" if not unmatched else "extra" if shadow_ended else "different"
        return level, kind, count

    def brings(self, tickets):
        """The tickets released at the last one if nothing happened before, and what it brings: an alarm, a stall, or None."""
        bare, shadows = self.at(tickets)
        cut = min(self.place(m, bare, shadows[m])[0] for m in self.levels())
        clashing = [m for m in self.levels() if self.clashes(m, bare, shadows[m])]
        stalled = (["bare"] if bare.stalled else []) + [m for m in self.levels() if shadows[m].stalled]
        if clashing:
            return bare.made[:cut], ("alarm", *self.alarm(clashing[0], bare, shadows[clashing[0]]))
        if stalled:
            return bare.made[:cut], ("stall", stalled[0])
        return bare.made[:cut], None


def proper(call):
    """The in-ticket of a hand-in (bytes, tickets lent) that 8, 11 and 12 do not refuse."""
    record, lent = call
    if lent < 16:
        raise Fault(SLIP)
    if len(record) != 8 or record[1] != 73 or record[6:] != bytes(2):
        raise Fault(RECORD)
    if record[0] > 15:
        raise Fault(CHANNEL)
    return record[0], int.from_bytes(record[2:6], "big")


def replay(setting, calls):
    """The answer of each hand-in: the refusal's number, or the released tickets and what they brought."""
    setting.opening()
    answers, tickets, over = [], [], False
    for call in calls:
        try:
            ticket = proper(call)
        except Fault as fault:
            answers.append(fault.number)
            continue
        tickets.append(ticket)
        if over:
            answers.append(HALTED)
            continue
        released, brought = setting.brings(tickets)
        answers.append((released, brought))
        over = brought is not None
    return answers
