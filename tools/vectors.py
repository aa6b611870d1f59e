#!/usr/bin/env python3
"""Let the prover compute the rules of crates/rules over a file of cases, and compare with a file of answers.

A case and its answer stand on lines of the same number, '#' begins a comment line, and bytes are in hex, '-' for none:

  check ENVELOPE                                          accepted SEQUENCE START-END,.. SECTIONS (8 to 12, 1 or 0 each)
  newer ENVELOPE ENVELOPE                                 (WHICH, START, END)
  translate ENVELOPE INSTALL ROOM                         program BYTES
  run ENVELOPE INSTALL VERDICT DEVICE SLOTS HOST TRACE    end END PLACE EVENTS USED SEQUENCE SLOTS EVENT-BYTES
  program BYTES VERDICT DEVICE SLOTS HOST TRACE           the same
                                                          or of any but newer: refused NUMBER PLACE

DEVICE is VENDOR:CLASS:SEQUENCE:EVENT-OPEN, SLOTS are IDENTIFIER:CAPACITY:PRESENT:SIZE:DIGEST with commas between, HOST the
host's answers, TRACE is LENGTH:BYTE. With --examples an envelope may be @N, the example of that number in that file. With
--document-02 the form is that of document 02's vectors: BYTE is in hex, and newer is answered with part WHICH START END. A file
whose name ends in gz is unpacked.

The crate is copied to the work folder, which lies outside the repository. The chosen cases become tables there, each proved by
one refl, as in proofs/BenchSheet.antt. A table that is not proved is tried again row by row. Status 0: every case agrees.
"""
import argparse, collections, gzip, pathlib, re, shutil, subprocess, sys, time

REPOSITORY = pathlib.Path(__file__).resolve().parent.parent
SPECS, PROOFS = 'Rattle.rules.specs', 'Rattle.rules.proofs'
TRUTH, GROUP, NEWER = {'0': 'false', '1': 'true'}, {'0': 'Boot', '1': 'Install'}, {'0': 'in_first', '1': 'in_second'}

# The prover stops a declaration at 50 million steps. What a row takes grows as the square of its envelope's length.
ROW_COST, TABLE_COST, BATCH_COST = 100_000, 2 * 4096 ** 2, 8 * 4096 ** 2

HELPERS = f"""-- What the generated tables share.
use Rattle.std.specs.Prelude.{{ℕ, List, [], ◌∷◌, map, Bool, true, false, cond, eqb}}
use {SPECS}.Bytes.{{Bytes}}
use {SPECS}.Run.{{Input}}
use {PROOFS}.Cases as Cases
use {PROOFS}.Cases.{{Answer, refusal, accepted, part, program, ended, Case}}

abbrev pub input : Bool → Bytes → Bytes → ℕ → Bool → Bytes → Bytes → Bytes → Input
input verdict vendor class number event slots answers trace =
    record {{ verdict = verdict; device = record {{ vendor = vendor; class = class; number = number; event = event }};
             slots = slots; answers = answers; trace = trace }}

-- a case does not tell whether common has a sequence of its own, which is key 3 and the first
abbrev pub untold : List ℕ → List ℕ
untold [] = []
untold (k ∷ ks) = cond (eqb k 3) ks (k ∷ ks)

abbrev pub told : Answer → Answer
told (refusal r p) = refusal r p
told (accepted n ids keys) = accepted n ids (untold keys)
told (part p) = part p
told (program b) = program b
told (ended e p n u s slots trace) = ended e p n u s slots trace

abbrev pub given : List Case → List Answer
given cs = map (λ c. told (Cases.answer c.job)) cs
"""


# A case and its answer in antt.
def unhex(text):
    return b'' if text == '-' else bytes.fromhex(text)


def items(words):
    return '(' + ' ∷ '.join([*map(str, words), '[]']) + ')'


def slot_bytes(text):
    """Slots in the layout of specs/Slots.antt."""
    out = b''
    for slot in [] if text == '-' else text.split(','):
        identifier, capacity, present, size, digest = slot.split(':')
        identifier = unhex(identifier)
        out += bytes([min(len(identifier), 255)]) + identifier[:32].ljust(32, b'\0') + int(capacity).to_bytes(4, 'big')
        out += bytes([int(present)]) + int(size).to_bytes(4, 'big') + unhex(digest)
    return out


def input_of(verdict, device, slots, host, trace):
    vendor, device_class, number, event = device.split(':')
    return (f'(input {TRUTH[verdict]} {items(unhex(vendor))} {items(unhex(device_class))} {number} {TRUTH[event]} '
            f'{items(slot_bytes(slots))} {items(unhex(host))} (replicate {trace.replace(":", " ")}))')


def job(case):
    kind, data, *rest = case.split(' ')
    data = items(unhex(data))
    if kind == 'check':
        return f'checks {data}'
    if kind == 'newer':
        return f'newest {data} {items(unhex(rest[0]))}'
    if kind == 'translate':
        return f'translates {data} {GROUP[rest[0]]} {rest[1]}'
    if kind == 'run':
        return f'runs {data} {GROUP[rest[0]]} {input_of(*rest[1:])}'
    if kind == 'program':
        return f'executes {data} {input_of(*rest)}'
    raise SystemExit(f'no such job: {kind}')


def wanted(case, answer):
    word, *rest = answer.split(' ')
    if word == 'refused':
        return f'refusal {rest[0]} {rest[1]}'
    if word == 'accepted':
        ids = items('span ' + place.replace('-', ' ') for place in rest[1].split(','))
        return f'accepted {rest[0]} {ids} {items(8 + k for k, there in enumerate(rest[2]) if there == "1")}'
    if word == 'program':
        return f'program {items(unhex(rest[0]))}'
    if word == 'end':
        *numbers, slots, events = rest
        length, fill = case.split(' ')[-1].split(':')
        events = unhex(events)
        return (f'ended {" ".join(numbers)} {items(slot_bytes(slots))} '
                f'({items(events)} ++ replicate {int(length) - len(events)} {fill})')
    which, start, end = re.findall(r'\d+', answer)
    return f'part (Newer.{NEWER[which]} (span {start} {end}))'


# Which cases, and in which tables.
def outcome(case, answer):
    """A case's kind, and what its answer is one of: a refusal or an end with its number, or the answer's first word."""
    word, *rest = answer.split(' ')
    return case.split(' ')[0], f'{word} {rest[0]}' if word in ('refused', 'end') else word if word.isalpha() else 'part'


def choose(outcomes, count, lines):
    """The cases of those lines, or so many, in turn from each outcome. Every outcome is among them in any case."""
    seen, turns = collections.Counter(), []
    for k, what in enumerate(outcomes):
        turns.append((seen[what], k))
        seen[what] += 1
    if lines:
        return [k for turn, k in turns if turn == 0 or lines[0] <= k + 1 <= lines[1]]
    return sorted(k for _, k in sorted(turns)[:max(count or len(turns), len(seen))])


def cost(case):
    return ROW_COST + sum(len(field) ** 2 // 4 for field in case.split(' ')[1:3])


def packed(things, cost_of, bound, most):
    """The things in order, in groups of at most so many, each within the bound unless it has one thing alone."""
    groups, spent = [], 0
    for thing in things:
        if not groups or len(groups[-1]) == most or spent + cost_of(thing) > bound:
            groups.append([])
            spent = 0
        groups[-1].append(thing)
        spent += cost_of(thing)
    return groups


# The copy, and the prover.
class Copy:
    def __init__(self, work):
        work = pathlib.Path(work).resolve()
        if REPOSITORY in [work, *work.parents]:
            raise SystemExit('the work folder lies in the repository, where a stray .antt file fails the gate')
        self.folder = work / 'vectors'
        self.proofs = self.folder / 'crates/rules/proofs'
        shutil.rmtree(self.folder / 'crates', ignore_errors=True)
        shutil.copytree(REPOSITORY / 'crates/rules', self.folder / 'crates/rules', ignore=shutil.ignore_patterns('out'))
        (self.folder / 'crates.txt').write_text('rules:\n')
        (self.proofs / 'Vectors.antt').write_text(HELPERS)
        with open(self.proofs / 'Lib.antt', 'a') as root:
            root.write('pub mod Vectors\npub mod VectorsTables\n')
        # the bench sheet says all that it unfolds of the rules, on a line and those indented below it
        sheet = (self.proofs / 'BenchSheet.antt').read_text()
        self.unfolding = re.search(r'^unfolding .*(\n .*)*', sheet, re.MULTILINE)[0]
        sheet = sheet.splitlines()
        self.head = '\n'.join([
            'use mathlib.Core.Path.{refl}', 'use Rattle.std.specs.Prelude.{◌≡◌, List, [], ◌∷◌, ◌++◌, true, false, replicate}',
            *(line for line in sheet if line.startswith(f'use {SPECS}.')), f'use {SPECS}.Newer as Newer',
            f'use {PROOFS}.Cases.{{checks, newest, runs, translates, executes}}',
            f'use {PROOFS}.Cases.{{refusal, accepted, part, program, ended, Case, case, wanted}}',
            f'use {PROOFS}.Vectors as Vectors', f'use {PROOFS}.Vectors.{{input}}', ''])

    def complaints(self, tables):
        """The prover's first complaint about each table that it does not prove. A table is a list of jobs with their answers."""
        text = self.head
        for n, rows in enumerate(tables):
            table = '\n    ∷ '.join([*(f'case ({asked}) ({answer})' for asked, answer in rows), '[]'])
            text += (f'\nabbrev cases{n} : List Case\ncases{n} =\n    {table}\n\n'
                     f'pub agree{n} : Vectors.given cases{n} ≡ wanted cases{n}\n{self.unfolding}\nagree{n} = refl\n')
        (self.proofs / 'VectorsTables.antt').write_text(text)
        run = subprocess.run(['rt', 'check'], cwd=self.folder / 'crates/rules', text=True, stdout=subprocess.PIPE, stderr=subprocess.STDOUT)
        errors = [line for line in run.stdout.splitlines() if ': error' in line]
        found = [re.search(r'/VectorsTables\.antt:\d+:\d+: error: `agree(\d+)`: (.*)', line) for line in errors]
        proved = run.returncode == 0 and 'logic=proved' in run.stdout
        if not all(found) or proved == bool(found):
            raise SystemExit(f'rt ended with {run.returncode}:\n{run.stdout[:4000]}')
        return {int(match[1]): match[2] for match in reversed(found)}


def read(path):
    with gzip.open(path, 'rt') if path.endswith('.gz') else open(path) as text:
        return [line for line in text.read().splitlines() if line and not line.startswith('#')]


# The form of document 02's vectors, in that of document 01's.
def first_case(case):
    start, _, byte = case.rpartition(':')
    return f'{start}:{int(byte, 16)}' if case.startswith(('run ', 'program ')) else case


def first_answer(answer):
    return '({}, {}, {})'.format(*answer.split(' ')[1:]) if answer.startswith('part ') else answer


def main():
    options = argparse.ArgumentParser(description=__doc__, formatter_class=argparse.RawDescriptionHelpFormatter)
    options.add_argument('cases')
    options.add_argument('answers')
    options.add_argument('work', help='a folder for the throw-away copy')
    options.add_argument('--examples', help='a file of examples: number, name and bytes on each line')
    options.add_argument('--document-02', action='store_true', help="the form of document 02's vectors")
    options.add_argument('--rows', type=int, default=40, help='the most rows of a table (40)')
    which = options.add_mutually_exclusive_group()
    which.add_argument('--count', type=int, help='so many cases, in turn from each kind and number (else all)')
    which.add_argument('--range', metavar='A-B', help='lines A to B, and a case of each kind and number')
    args = options.parse_args()

    examples = {'@' + number: data for number, _, data in map(str.split, read(args.examples))} if args.examples else {}
    cases = [' '.join(examples.get(field, field) for field in case.split(' ')) for case in read(args.cases)]
    answers = read(args.answers)
    if args.document_02:
        cases, answers = list(map(first_case, cases)), list(map(first_answer, answers))
    if len(cases) != len(answers):
        raise SystemExit(f'{len(cases)} cases and {len(answers)} answers')
    outcomes = list(map(outcome, cases, answers))
    chosen = choose(outcomes, args.count, args.range and [int(n) for n in args.range.split('-')])

    copy, bad, done, start = Copy(args.work), {}, 0, time.monotonic()
    left = packed(chosen, lambda k: cost(cases[k]), TABLE_COST, args.rows)
    while left:
        alone = []
        for batch in packed(left, lambda table: sum(cost(cases[k]) for k in table), BATCH_COST, len(left)):
            found = copy.complaints([[(job(cases[k]), wanted(cases[k], answers[k])) for k in table] for table in batch])
            for n, table in enumerate(batch):
                if n in found and len(table) > 1:
                    alone += [[k] for k in table]
                    continue
                done += len(table)
                if n in found:
                    bad[table[0]] = found[n]
            print(f'{done} of {len(chosen)} cases, {len(bad)} not proved, {time.monotonic() - start:.0f} s', flush=True)
        left = alone

    total, agreed = (collections.Counter(outcomes[k] for k in ks) for ks in (chosen, set(chosen) - set(bad)))
    for kind in sorted({kind for kind, _ in total}):
        row = sorted((what for what in total if what[0] == kind), key=lambda what: (what[1].split(' ')[0], len(what[1]), what))
        print(f'{kind}: {sum(agreed[what] for what in row)} of {sum(total[what] for what in row)} agree:',
              ', '.join(f'{what[1]} {agreed[what]}/{total[what]}' for what in row))
    for k, why in sorted(bad.items()):
        print(f'case {k + 1}, {" ".join(outcomes[k])}: {"the prover could not tell" if "step limit" in why else why[:200]}')
    print(f'{len(chosen) - len(bad)} of {len(chosen)} cases agree, {len(chosen) / (time.monotonic() - start):.1f} a second')
    return 1 if bad else 0


if __name__ == '__main__':
    sys.exit(main())
