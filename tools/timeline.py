#!/usr/bin/env python3
"""Draws the report of a run: tools/timeline.py REPORT > FILE.html

The page needs nothing else, and is read without its script too. Processors stand from left to right, cycles downward. Fetches are pale, data is
plain; a bar joins a locked group; a band lies round each attempt at a task switch, with the names of both tasks; and beside each processor a
coloured column says which task it is in. Cycles of plain running are folded where many follow one another.

    --svg     the picture alone
    --all     nothing is folded

What it says of an attempt it works out from the report alone: the descriptors and fields that the attempt's own cycles read. The report
doesn't tell CPL, nor the limit of the GDT; so rows 1, 2 and 4 of the check table, of which no cycle tells, aren't shown.
"""

import html
import json
import sys

SWITCH = {"tss", "claimjmp", "claimcall", "claimstart", "save", "link", "back", "reljmp", "relret", "load"}
CLAIMS = {"claimjmp": "JMP", "claimcall": "CALL", "claimstart": "start"}
DESCRIPTORS = {"gdt", "ldt", "gdtacc", "ldtacc"}
PLAIN = {"fetch", "data", "push", "pop"}
ROW, LANE, TASK, LEFT, TOP = 14, 236, 12, 70, 44
LONGEST_SHOWN, FOLDED_AT = 6, 9
COLOURS = ["#4e79a7", "#f28e2b", "#59a14f", "#b07aa1", "#e15759", "#76b7b2", "#9c755f", "#edc948"]
# The new task's segment registers in the order in which their descriptors are read, by their fields of the TSS.
SEGMENTS = [("CS", 19), ("SS", 20), ("DS", 21), ("ES", 18), ("FS", 22), ("GS", 23)]
EIP, LDT = 8, 24


class Refused(Exception):
    """The text is no report."""


class Cycle:
    """One line of a bus cycle."""

    def __init__(self, index, line):
        word = line.split(" ")
        if len(word) != 10 or word[2] not in ("m", "p") or word[3] not in ("r", "w") or word[4] not in ("+", "."):
            raise Refused(f"no line of a cycle: {line}")
        self.index, self.line, self.cpu = index, line, int(word[1])
        self.write, self.joined, self.role, self.part = word[3] == "w", word[4] == "+", word[5], int(word[6])
        self.address, self.enables, self.value = int(word[7], 16), int(word[8], 16), int(word[9], 16)

    def bytes(self):
        """The enabled bytes by their addresses."""
        return {self.address + k: self.value >> 8 * k & 255 for k in range(4) if self.enables >> k & 1}


class Report:
    """The cycles, the processors and tasks at the end, and the verdict."""

    def __init__(self, text):
        lines = text.split("\n")
        if lines[0] != "m386 report 1" or len(lines) < 3 or lines[-1] != "":
            raise Refused("the first line of a report is: m386 report 1, and its last line has an end")
        self.machine, self.verdict = lines[1], lines[-2]
        self.cycles, self.processors, self.selectors = [], {}, {}
        for line in lines[2:-2]:
            kind, _, rest = line.partition(" ")
            if kind == "c":
                self.cycles.append(Cycle(len(self.cycles), line))
            elif kind == "p":
                self.processors[int(rest.split(" ")[0])] = line
            elif kind == "t":
                word = rest.split(" ")
                self.selectors[int(word[word.index("base") + 1], 16)] = word[0]
            else:
                raise Refused(f"no line of a report: {line}")

    def task_at(self, base):
        """The name of the task whose TSS begins at an address."""
        selector = self.selectors.get(base)
        return f"task {selector}" if selector else f"TSS {base:08x}"


def descriptor(cycles):
    """The eight bytes that the first cycles read as a descriptor, and how many cycles did, or None where they aren't all there."""
    found, begin = {}, None
    for count, it in enumerate(cycles, 1):
        read = it.bytes()
        begin = min(read) if begin is None else begin
        found.update(read)
        if all(begin + k in found for k in range(8)):
            return [found[begin + k] for k in range(8)], count
    return None


class Descriptor:
    """Base, limit and access byte of a descriptor."""

    def __init__(self, b):
        self.base = b[2] | b[3] << 8 | b[4] << 16 | b[7] << 24
        raw = b[0] | b[1] << 8 | (b[6] & 15) << 16
        self.limit = raw << 12 | 0xFFF if b[6] & 0x80 else raw
        self.access = b[5]

    def present(self):
        return self.access >> 7 == 1

    def level(self):
        return self.access >> 5 & 3

    def is_code(self):
        return self.access & 0x18 == 0x18

    def conforms(self):
        return self.access & 0x1C == 0x1C

    def is_writable(self):
        return self.access & 0x1A == 0x12

    def is_readable(self):
        return self.access & 0x18 == 0x10 or self.access & 0x1A == 0x1A


class Attempt:
    """An attempt at a task switch, from its first cycle to its last."""

    def __init__(self, report, cycles, is_event):
        self.cycles, self.cpu = cycles, cycles[0].cpu
        self.first, self.last = cycles[0].index, cycles[-1].index
        roles = [it.role for it in cycles]
        self.kind = "IRET" if "back" in roles else next((CLAIMS[it] for it in roles if it in CLAIMS), "JMP or CALL")
        if is_event and self.kind != "IRET":
            self.kind = "event"
        self.rows, self.new, self.old = [], None, None
        self.judge(report)

    def judge(self, report):
        of = lambda *wanted: [it for it in self.cycles if it.role in wanted]
        saves, links = of("save"), of("back")
        if saves:
            # (EIP, the first field that is saved, stands at 32)
            self.old = report.task_at(saves[0].address + (saves[0].enables & -saves[0].enables).bit_length() - 1 - 32)
        elif links:
            self.old = report.task_at(min(links[0].bytes()))
        read = descriptor([it for it in of("tss") if not it.write])
        if not read:
            return
        tss = Descriptor(read[0])
        self.new = report.task_at(tss.base)
        is_tss = tss.access & 0x1D == 0x09
        busy = bool(tss.access & 2)
        if self.say(3, "a TSS of the 386", is_tss) and self.say(5, "busy" if self.kind == "IRET" else "available", busy == (self.kind == "IRET")):
            if self.say(6, "present", tss.present()) and self.say(7, "limit at least 103", tss.limit >= 103):
                self.judge_new(of)

    def say(self, row, text, holds):
        self.rows.append((row, text, holds))
        return holds

    def judge_new(self, of):
        fields = {}
        for it in of("load"):
            fields.setdefault(it.part, {}).update(it.bytes())
        number = {n: sum(b << 8 * k for k, (_, b) in enumerate(sorted(of_field.items()))) for n, of_field in fields.items()}
        if EIP not in number or LDT not in number:
            return
        later = [it for it in of(*DESCRIPTORS) if not it.write]

        def next_descriptor():
            found = descriptor(later)
            if found:
                del later[: found[1]]
                return Descriptor(found[0])
            return None

        if number[LDT] & ~3:
            ldt = next_descriptor()
            if not self.say(8, "LDT", ldt is not None and ldt.access & 0x1F == 2) or not self.say(9, "LDT present", ldt.present()):
                return
        code = None
        for name, field in SEGMENTS:
            selector = number.get(field, 0)
            found = next_descriptor() if selector & ~3 else None
            holds = self.judge_segment(name, selector, found, number.get(19, 0) & 3)
            if not holds:
                return
            code = code or found
        self.say(19, "EIP inside CS", number[EIP] <= code.limit)

    def judge_segment(self, name, selector, found, cpl):
        rpl = selector & 3
        if name == "CS":
            return (
                self.say(10, "CS is code", found is not None and found.is_code())
                and self.say(11, "DPL of CS", found.level() <= rpl if found.conforms() else found.level() == rpl)
                and self.say(12, "CS present", found.present())
            )
        if name == "SS":
            return (
                self.say(13, "SS is writable data", found is not None and found.is_writable())
                and self.say(14, "DPL of SS", found.level() == rpl == cpl)
                and self.say(15, "SS present", found.present())
            )
        if not selector & ~3:
            return True
        return (
            self.say(16, f"{name} is readable", found is not None and found.is_readable())
            and self.say(17, f"DPL of {name}", found.conforms() or found.level() >= max(cpl, rpl))
            and self.say(18, f"{name} present", found.present())
        )

    def failed(self):
        return next((f"row {row}: {text}" for row, text, holds in self.rows if not holds), None)

    def is_entered(self):
        return any(it.role == "load" for it in self.cycles)

    def text(self):
        tasks = " → ".join(it for it in (self.old, self.new) if it)
        return f"{self.kind}{': ' if tasks else ''}{tasks}, " + (f"fails at {self.failed()}" if self.failed() else "whole")

    def told(self):
        rows = [f"row {row}: {text}: {'holds' if holds else 'fails'}" for row, text, holds in self.rows]
        return "\n".join([self.text(), *rows])


def attempts_of(report):
    """The attempts at a task switch: each begins with the link that IRET reads or with the new TSS's descriptor, and lasts as long as cycles of a
    switch follow, and behind the loads the descriptors of the new task's segments."""
    found, open_at, is_event = [], {}, {}

    def close(cpu):
        cycles = open_at.pop(cpu, None)
        if cycles:
            found.append(Attempt(report, cycles, is_event.get(cpu, False)))

    for it in report.cycles:
        held = open_at.get(it.cpu)
        begins = it.role == "back" or it.role == "tss" and not it.joined and not (held and held[-1].role == "back")
        if held and it.role == "back" and held[-1].role == "back":
            begins = False
        goes_on = held and (it.role in SWITCH or it.role in DESCRIPTORS and held[-1].role in DESCRIPTORS | {"load"})
        if begins or not goes_on:
            close(it.cpu)
        if begins:
            open_at[it.cpu] = [it]
        elif goes_on:
            held.append(it)
        else:
            is_event[it.cpu] = it.role == "idt" or (is_event.get(it.cpu, False) and it.role in DESCRIPTORS)
    for cpu in list(open_at):
        close(cpu)
    return sorted(found, key=lambda it: it.first)


def rows_of(report, attempts, is_whole):
    """What stands in each row of the picture: one cycle, or a run of plain ones that are folded, as (first, last)."""
    busy = {it.index for attempt in attempts for it in attempt.cycles}
    plain = [it.role in PLAIN and it.index not in busy and not it.joined for it in report.cycles]
    rows, at = [], 0
    while at < len(plain):
        end = at
        while end < len(plain) and plain[end] and not (end + 1 < len(plain) and report.cycles[end + 1].joined):
            end += 1
        if not is_whole and end - at >= FOLDED_AT:
            keep = LONGEST_SHOWN // 2
            rows += [(k, k) for k in range(at, at + keep)] + [(at + keep, end - keep - 1)] + [(k, k) for k in range(end - keep, end)]
        else:
            rows += [(k, k) for k in range(at, end)]
        at = end
        if at < len(plain):
            rows.append((at, at))
            at += 1
    return rows


def sort_of(it, busy):
    if it.role in SWITCH or it.index in busy:
        return "switch"
    return it.role if it.role == "fetch" else "data" if it.role in PLAIN | {"flags"} else "table"


class Picture:
    """The picture's elements, and how large it is."""

    def __init__(self, report, is_whole):
        self.report, self.attempts = report, attempts_of(report)
        self.rows = rows_of(report, self.attempts, is_whole)
        self.row_of, self.parts, self.tasks = {}, [], {}
        for y, (first, last) in enumerate(self.rows):
            for index in range(first, last + 1):
                self.row_of[index] = y
        self.cpus = max([it.cpu for it in report.cycles] + list(report.processors), default=0) + 1
        self.width, self.height = LEFT + self.cpus * LANE + 10, TOP + len(self.rows) * ROW + 30

    def x(self, cpu):
        return LEFT + cpu * LANE

    def y(self, index):
        return TOP + self.row_of[index] * ROW

    def colour(self, task):
        return self.tasks.setdefault(task, COLOURS[len(self.tasks) % len(COLOURS)])

    def add(self, text):
        self.parts.append(text)

    def draw(self):
        for cpu in range(self.cpus):
            name = html.escape(f"processor {cpu}")
            self.add(f'<text class="head" x="{self.x(cpu) + TASK + 6}" y="26">{name}</text>')
            self.draw_tasks(cpu)
        for number, attempt in enumerate(self.attempts):
            self.draw_band(number, attempt)
        self.draw_groups()
        busy = {it.index for attempt in self.attempts for it in attempt.cycles}
        for first, last in self.rows:
            if first == last:
                self.draw_cycle(self.report.cycles[first], busy)
            else:
                self.draw_fold(first, last)
        verdict = html.escape(self.report.verdict)
        self.add(f'<text class="head" x="{LEFT}" y="{self.height - 10}">{verdict}</text>')
        style = "".join(line.strip() for line in STYLE.strip().split("\n"))
        body = "\n".join(self.parts)
        return (
            f'<svg xmlns="http://www.w3.org/2000/svg" width="{self.width}" height="{self.height}" viewBox="0 0 {self.width} {self.height}">'
            f"<style>{style}</style>\n{body}\n</svg>"
        )

    def draw_tasks(self, cpu):
        entered = [it for it in self.attempts if it.cpu == cpu and it.is_entered()]
        tasks = [(0, entered[0].old if entered else self.last_task(cpu))]
        tasks += [(self.row_of[it.first], it.new) for it in entered]
        ends = [begin for begin, _ in tasks[1:]] + [len(self.rows)]
        for (begin, task), end in zip(tasks, ends):
            if task and end > begin:
                self.add(
                    f'<rect x="{self.x(cpu)}" y="{TOP + begin * ROW}" width="{TASK}" height="{(end - begin) * ROW}" fill="{self.colour(task)}">'
                    f"<title>processor {cpu}: {html.escape(task)}</title></rect>"
                )

    def last_task(self, cpu):
        word = self.report.processors.get(cpu, "").split(" ")
        selector = word[word.index("tr") + 1] if "tr" in word else "0000"
        return None if selector == "0000" else f"task {selector}"

    def draw_band(self, number, it):
        x, y = self.x(it.cpu) + TASK + 2, self.y(it.first)
        sort = "band failed" if it.failed() else "band"
        title = html.escape(it.told())
        self.add(
            f'<rect class="{sort}" data-attempt="{number}" x="{x}" y="{y - 1}" width="{LANE - TASK - 8}" height="{self.y(it.last) + ROW - y + 1}" rx="4">'
            f"<title>{title}</title></rect>"
        )

    def draw_groups(self):
        begin = None
        for it in self.report.cycles + [None]:
            if it is not None and it.joined:
                begin = it.index - 1 if begin is None else begin
            elif begin is not None:
                end = (it.index if it is not None else len(self.report.cycles)) - 1
                x = self.x(self.report.cycles[begin].cpu) + TASK + 5
                self.add(f'<rect class="group" x="{x}" y="{self.y(begin) + 2}" width="3" height="{self.y(end) - self.y(begin) + ROW - 4}"/>')
                begin = None

    def draw_cycle(self, it, busy):
        x, y = self.x(it.cpu) + TASK + 10, self.y(it.index)
        word = html.escape(f"{it.role} {'w' if it.write else 'r'} {it.address:08x} {it.value:08x}")
        self.add(
            f'<g class="c {sort_of(it, busy)}{" w" if it.write else ""}" data-cycle="{it.index}"><rect x="{x}" y="{y + 1}" width="{LANE - TASK - 20}" height="{ROW - 2}"/>'
            f'<text x="{x + 4}" y="{y + 11}">{word}</text><title>{it.index}: {html.escape(it.line)}</title></g>'
        )
        if it.index % 10 == 0 or self.row_of.get(it.index - 1) != self.row_of[it.index] - 1:
            self.add(f'<text class="number" x="{LEFT - 8}" y="{y + 11}">{it.index}</text>')

    def draw_fold(self, first, last):
        y = self.y(first)
        cycles = self.report.cycles[first : last + 1]
        for cpu in sorted({it.cpu for it in cycles}):
            own = [it for it in cycles if it.cpu == cpu]
            counts = ", ".join(f"{sum(it.role == role for it in own)} {role}" for role in ("fetch", "data", "push", "pop") if any(it.role == role for it in own))
            x = self.x(cpu) + TASK + 10
            self.add(
                f'<g class="fold" data-first="{first}" data-last="{last}"><rect x="{x}" y="{y + 1}" width="{LANE - TASK - 20}" height="{ROW - 2}"/>'
                f'<text x="{x + 4}" y="{y + 11}">{len(own)} cycles</text><title>{first} to {last}, processor {cpu}: {counts}</title></g>'
            )


STYLE = """
text{font:10px monospace;fill:#222}
text.head{font:bold 12px sans-serif}
text.number{text-anchor:end;fill:#888}
.c rect{fill:#9db8d2}
.fetch rect{fill:#eef2f6}
.fetch text{fill:#999}
.table rect{fill:#d9c9a8}
.switch rect{fill:#bcd9b4}
.w rect{stroke:#555;stroke-width:.8}
.band{fill:#eaf5e6;stroke:#59a14f}
.failed{fill:#fbe9e7;stroke:#c0392b}
.group{fill:#333}
.fold rect{fill:#fff;stroke:#bbb;stroke-dasharray:3 2}
.fold text{fill:#888}
.nofetch .fetch{display:none}
"""

SCRIPT = """
const cycles = document.getElementById("lines") ? JSON.parse(document.getElementById("lines").textContent) : {};
const attempts = JSON.parse(document.getElementById("attempts").textContent);
const line = document.getElementById("line");
document.addEventListener("mousemove", function (e) {
  const at = document.elementFromPoint(e.clientX, e.clientY);
  const cycle = at && at.closest("[data-cycle]"), fold = at && at.closest("[data-first]"), band = at && at.closest("[data-attempt]");
  if (cycle) line.textContent = cycle.querySelector("title").textContent;
  else if (fold) line.textContent = fold.querySelector("title").textContent;
  else if (band) line.textContent = attempts[band.dataset.attempt];
});
document.getElementById("fetches").addEventListener("change", function (e) {
  document.body.classList.toggle("nofetch", !e.target.checked);
});
"""


def page(report, picture):
    svg = picture.draw()
    tasks = "".join(f'<span><i style="background:{colour}"></i>{html.escape(task)}</span>' for task, colour in picture.tasks.items())
    attempts = json.dumps([it.told() for it in picture.attempts]).replace("<", "\\u003c")
    listed = "".join(f"<li>cycles {it.first} to {it.last}, processor {it.cpu}: {html.escape(it.text())}</li>" for it in picture.attempts)
    folded = sum(last > first for first, last in picture.rows)
    return f"""<!DOCTYPE html>
<html lang="en"><head><meta charset="utf-8"><title>m386: {len(report.cycles)} cycles</title>
<style>
body{{margin:0;font:13px sans-serif;color:#222}}
header{{position:sticky;top:0;background:#fff;border-bottom:1px solid #ccc;padding:8px 16px;z-index:1}}
#line{{font:12px monospace;white-space:pre-wrap;min-height:1.3em;margin:4px 0 0}}
span{{margin-right:14px}} i{{display:inline-block;width:10px;height:10px;margin-right:4px}}
main{{padding:8px 16px}}
</style></head><body>
<header>{html.escape(report.machine)}, {len(report.cycles)} cycles, {len(picture.attempts)} attempts at a task switch, {folded} runs folded: {html.escape(report.verdict)}
<label><input type="checkbox" id="fetches" checked> fetches</label> {tasks}
<p id="line">Point at a cycle for its line, at the margin of a band for its checks.</p></header>
<main>
{svg}
<ol>{listed}</ol>
</main>
<script type="application/json" id="attempts">{attempts}</script>
<script>{SCRIPT}</script>
</body></html>
"""


def main(words):
    flags, names = {it for it in words if it.startswith("--")}, [it for it in words if not it.startswith("--")]
    if len(names) != 1 or flags - {"--svg", "--all"}:
        sys.exit(__doc__.strip())
    try:
        with open(names[0], encoding="ascii") as it:
            report = Report(it.read())
    except (OSError, ValueError, Refused) as fault:
        sys.exit(f"timeline.py: {fault}")
    picture = Picture(report, "--all" in flags)
    print(picture.draw() if "--svg" in flags else page(report, picture), end="")


if __name__ == "__main__":
    main(sys.argv[1:])
