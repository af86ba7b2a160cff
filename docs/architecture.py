#!/usr/bin/env python3
"""Draws docs/architecture.svg (the crates) and docs/call.svg (the way of a call). Standard library only; run it in any folder."""
import os

HERE = os.path.dirname(os.path.abspath(__file__))
FILL = {
    "definition": "#cfe3f7",
    "theorem": "#fbe3b0",
    "code": "#e3f1df",
    "face": "#b9dcae",
    "text": "#f0ece3",
    "test": "#e9def2",
    "plain": "#ffffff",
}


class Drawing:
    def __init__(self, width, height):
        self.width, self.height = width, height
        self.parts, self.boxes = [], {}

    def text(self, x, y, words, size=12, weight="normal", anchor="middle", colour="#222"):
        self.parts.append(
            f'<text x="{x}" y="{y}" font-size="{size}" font-weight="{weight}" text-anchor="{anchor}" fill="{colour}">{words}</text>')

    def box(self, name, x, y, width, height, kind, lines, dashed=False):
        dash = ' stroke-dasharray="5 4"' if dashed else ""
        self.parts.append(
            f'<rect x="{x}" y="{y}" width="{width}" height="{height}" rx="5" fill="{FILL[kind]}" stroke="#555"{dash}/>')
        self.boxes[name] = (x, y, width, height)
        top = y + height / 2 - 8 * (len(lines) - 1) + 4
        for i, words in enumerate(lines):
            self.text(x + width / 2, top + 16 * i, words, 14 if i == 0 else 11.5, "bold" if i == 0 else "normal")

    def line(self, points, dashed=False, colour="#555", arrow=True):
        dash = ' stroke-dasharray="5 4"' if dashed else ""
        head = ' marker-end="url(#arrow)"' if arrow else ""
        path = " ".join(f"{x},{y}" for x, y in points)
        self.parts.append(f'<polyline points="{path}" fill="none" stroke="{colour}" stroke-width="1.4"{dash}{head}/>')

    def down(self, upper, lower, from_part=0.5, to_part=0.5, dashed=False):
        """An arrow from a part of the upper box's foot to a part of the lower box's top, with one bend if need be."""
        x, y, w, h = self.boxes[upper]
        u, v, s, _ = self.boxes[lower]
        a, b = x + w * from_part, u + s * to_part
        if abs(a - b) < 1:
            self.line([(a, y + h), (a, v - 2)], dashed)
        else:
            middle = v - 12
            self.line([(a, y + h), (a, middle), (b, middle), (b, v - 2)], dashed)

    def write(self, name):
        head = (
            f'<svg xmlns="http://www.w3.org/2000/svg" viewBox="0 0 {self.width} {self.height}" width="{self.width}" height="{self.height}" '
            'font-family="DejaVu Sans, Verdana, sans-serif">\n'
            '<defs><marker id="arrow" viewBox="0 0 8 8" refX="7" refY="4" markerWidth="7" markerHeight="7" orient="auto">'
            '<path d="M0,0 L8,4 L0,8 z" fill="#555"/></marker></defs>\n'
            f'<rect width="{self.width}" height="{self.height}" fill="#ffffff"/>\n')
        with open(os.path.join(HERE, name), "w", encoding="utf-8") as out:
            out.write(head + "\n".join(self.parts) + "\n</svg>\n")


def crates():
    d = Drawing(1445, 970)
    # bottom
    d.box("base_ten", 20, 872, 350, 46, "code", ["base_ten", "runs of bytes, numbers in base ten"])
    d.box("notation", 200, 780, 170, 62, "definition", ["notation", "rule text: grammar,", "parse, print (no code)"])
    d.box("machine", 395, 780, 1025, 62, "definition", ["machine", "declared types; in specs/ the whole machine, the promise, the worked cases; in proofs/ their laws"])
    # leaves
    d.box("cells", 385, 695, 220, 50, "code", ["cells", "header, fields, counts, state"])
    d.box("queue", 630, 695, 220, 50, "code", ["queue", "the ring; waiting changes"])
    d.box("counts", 630, 610, 220, 50, "code", ["counts", "counters moved; cells named"])
    d.box("questions", 385, 610, 220, 50, "code", ["questions", "1 to 5, 7, 14: on every store"])
    # rule text
    d.box("writer", 210, 380, 155, 50, "code", ["writer", "1, 4, 6, then the text"])
    d.box("printer", 210, 455, 155, 50, "code", ["printer", "the text of a word"])
    d.box("reader", 210, 535, 155, 62, "code", ["reader", "a text's questions,", "then its cells"])
    d.box("scanner", 210, 640, 155, 62, "code", ["scanner", "judges a text,", "counts its pairs"])
    # middle
    d.box("calls", 385, 380, 140, 190, "code", ["calls", "fresh and the", "seven row calls"])
    d.box("marks", 545, 520, 140, 50, "code", ["marks", "roots, marks"])
    d.box("collector", 545, 380, 140, 46, "code", ["collector", "apply, free"])
    d.box("suspects", 545, 440, 140, 28, "code", ["suspects"])
    d.box("walks", 545, 480, 140, 28, "code", ["walks"])
    d.box("audit", 710, 380, 140, 28, "code", ["audit"])
    d.box("audit_pointers", 710, 422, 140, 28, "code", ["audit_pointers"])
    d.box("audit_packets", 710, 464, 140, 28, "code", ["audit_packets"])
    d.box("audit_cells", 710, 506, 140, 28, "code", ["audit_cells"])
    d.box("scratch_counts", 710, 548, 140, 28, "code", ["scratch_counts"])
    d.box("soundness", 875, 380, 150, 365, "theorem", ["soundness", "every call keeps a", "sound store sound;", "nothing is trimmed;", "demand 3 over any", "list of calls;", "what is written", "is read back", "", "(no code)"])
    d.box("store", 210, 290, 815, 52, "face", ["store", "the public face: twelve calls, one promise each"])
    # texts and programs
    d.box("line_text", 20, 380, 165, 365, "text", ["line_text", "a line's bytes to a", "request, a reply to", "an output line", "", "(knows no store)"])
    d.box("serving", 20, 195, 165, 52, "text", ["serving", "a request served"])
    d.box("call_text", 205, 195, 165, 52, "text", ["call_text", "the line of a call"])
    d.box("traffic", 390, 195, 165, 52, "text", ["traffic", "workload, draws, calls"])
    d.box("session_lines", 20, 110, 220, 52, "text", ["session_lines", "bytes in, bytes out: a listing"])
    d.box("load_lines", 260, 110, 220, 52, "text", ["load_lines", "a workload in, a listing out"])
    d.box("rule_lines", 500, 110, 220, 52, "text", ["rule_lines", "texts in, texts out"])
    d.box("session", 20, 30, 220, 48, "text", ["session", "program: a session"])
    d.box("load", 260, 30, 220, 48, "text", ["load", "program: the load bench"])
    d.box("rules", 500, 30, 220, 48, "text", ["rules", "program: rule texts tried"])
    d.box("streams", 745, 110, 150, 52, "text", ["streams", "reads and writes"])
    # for C
    d.box("c_store_c", 635, 172, 88, 26, "face", ["c_store_c"])
    d.box("c_store", 635, 212, 165, 42, "face", ["c_store", "the twelve calls for C"])
    d.box("c_layout", 820, 195, 130, 52, "code", ["c_layout", "queue, reply in C"])
    # tests
    d.box("up_and_step", 915, 110, 120, 52, "test", ["up_and_step", "for measuring"])
    d.box("store_cases", 1055, 110, 160, 52, "test", ["store_cases", "program: twelve calls"])
    d.box("state_lines", 1055, 380, 160, 365, "test", ["state_lines", "reads the reference's", "lists, writes replies", "and stores"])
    d.box("c_calls", 750, 30, 160, 48, "test", ["c_calls", "operands by place"])
    d.box("reference", 940, 30, 275, 48, "plain", ["reference", "the same machine in Rust, from the papers"], dashed=True)

    # the roster
    d.box("roster_cases", 1240, 30, 180, 48, "test", ["roster_cases", "program: the roster's calls"])
    d.box("roster", 1240, 110, 180, 52, "face", ["roster", "four calls, one promise"])
    d.box("roster_changes", 1240, 185, 180, 36, "code", ["roster_changes"])
    d.box("roster_list", 1240, 241, 180, 52, "code", ["roster_list", "the list, walked along"])
    d.box("resting", 1240, 380, 180, 150, "theorem", ["resting", "a row call with a", "step after it", "", "(no code)"])
    d.box("readings", 1240, 610, 180, 135, "definition", ["readings", "the plain list of", "seat and reading", "", "(knows no cells)"])

    d.down("session", "session_lines")
    d.down("load", "load_lines")
    d.down("rules", "rule_lines")
    # the programs stand on streams
    d.line([(200, 78), (200, 94), (440, 94)], arrow=False)
    d.line([(440, 78), (440, 94), (680, 94)], arrow=False)
    d.line([(680, 78), (680, 94), (820, 94), (820, 108)])
    d.down("session_lines", "serving", 0.375, 0.5)
    d.down("load_lines", "call_text", 0.125, 0.5)
    d.down("load_lines", "traffic", 0.9, 0.4121)
    # load_lines stands on session_lines and serving, too
    d.line([(260, 136), (242, 136)])
    # serving, call_text and traffic stand on line_text
    d.line([(62, 247), (62, 378)])
    d.line([(287, 247), (287, 264), (62, 264)], arrow=False)
    d.line([(472, 247), (472, 264), (287, 264)], arrow=False)
    # the three loops call the store
    d.line([(225, 162), (225, 176), (470, 176)], arrow=False)
    d.line([(470, 162), (470, 176), (610, 176)], arrow=False)
    d.line([(610, 162), (610, 288)])
    # the store stands on all of the middle
    for middle in (287, 455, 615, 780, 950):
        d.line([(middle, 342), (middle, 378)])
    d.line([(210, 316), (194, 316), (194, 575), (208, 575)])
    d.down("store_cases", "state_lines")
    # store_cases stands on the store, too
    d.line([(1075, 162), (1075, 178), (975, 178), (975, 288)])
    # c_store_c exports what c_calls calls
    d.line([(679, 198), (679, 210)])
    d.line([(750, 54), (732, 54), (732, 210)])
    # so do up_and_step and c_store; c_layout knows the machine alone
    d.line([(962, 162), (962, 288)])
    d.line([(717, 254), (717, 288)])
    d.line([(800, 221), (818, 221)])
    d.line([(885, 247), (885, 268), (1040, 268), (1040, 778)])
    # rule text: the printer knows the table, the reader makes calls' conses, the scanner knows the notation alone
    d.down("writer", "printer")
    d.down("reader", "scanner")
    d.line([(365, 552), (383, 552)])
    d.line([(210, 480), (202, 480), (202, 762)], arrow=False)
    d.line([(287, 702), (287, 778)])
    d.down("calls", "questions", 0.5, 0.3182)
    d.down("collector", "suspects")
    d.down("suspects", "walks")
    d.down("walks", "marks")
    # marks: on questions and counts
    d.down("marks", "questions", 0.2, 0.854)
    d.down("marks", "counts", 0.9, 0.1864)
    # calls: on counts, and these on the queue
    d.line([(525, 490), (535, 490), (535, 588), (650, 588), (650, 608)])
    d.down("counts", "queue")
    d.line([(630, 635), (607, 635)])
    # the audit: rule upon rule; its crates stand on marks, questions and queue
    d.down("audit", "audit_pointers")
    d.down("audit_pointers", "audit_packets")
    d.down("audit_packets", "audit_cells")
    d.line([(710, 394), (697, 394), (697, 540), (687, 540)])
    d.line([(710, 520), (703, 520), (703, 580), (590, 580), (590, 608)])
    d.line([(850, 470), (866, 470), (866, 720), (852, 720)])
    # S3 and S4 count in the scratch
    d.line([(850, 484), (858, 484), (858, 562), (852, 562)])
    d.line([(710, 560), (687, 560)])
    d.down("questions", "cells")
    d.down("cells", "machine", 0.5, 0.09756)
    d.down("queue", "machine", 0.5, 0.33658)
    d.down("soundness", "machine", 0.5, 0.54146)
    d.down("state_lines", "machine", 0.5, 0.72195)
    # the roster: on the store's calls, on theorems about whoever keeps the promise, and on its own definition
    d.down("roster_cases", "roster")
    d.down("roster", "roster_changes")
    d.down("roster_changes", "roster_list")
    d.down("roster_list", "resting")
    d.line([(1240, 258), (1010, 258), (1010, 288)])
    d.line([(1240, 400), (1228, 400), (1228, 362), (1033, 362), (1033, 400), (1027, 400)])
    d.line([(1420, 267), (1433, 267), (1433, 677), (1422, 677)])
    d.down("readings", "machine", 0.5, 0.9122)
    # line_text: on the machine, as the printer, and on base_ten
    d.line([(102, 745), (102, 762), (420, 762), (420, 778)])
    d.line([(60, 745), (60, 870)])
    # the machine stands on the notation, and that on base_ten
    d.line([(395, 811), (372, 811)])
    d.line([(285, 842), (285, 870)])
    # expected outputs
    d.line([(1010, 30), (1010, 14), (610, 14), (610, 28)], dashed=True)
    d.line([(1135, 78), (1135, 108)], dashed=True)
    d.text(1083, 98, "expected outputs", 11, colour="#555")
    legend(d, 20, 940, [("definition", "definitions"), ("code", "code, proved equal to them"), ("theorem", "theorems about them"), ("face", "public calls"), ("text", "texts and programs"), ("test", "tests")])
    d.write("architecture.svg")


def legend(d, x, y, entries):
    for kind, words in entries:
        d.parts.append(f'<rect x="{x}" y="{y}" width="16" height="14" rx="3" fill="{FILL[kind]}" stroke="#555"/>')
        d.text(x + 22, y + 12, words, 11.5, anchor="start")
        x += 40 + 7 * len(words)


def call():
    d = Drawing(1060, 750)
    d.text(20, 28, "A row call: the line cons 1 0, third of a session", 15, "bold", "start")
    d.box("parse", 20, 50, 190, 62, "text", ["line_text::parse", "bytes to a request", "request_of"])
    d.box("serve", 240, 50, 190, 62, "text", ["session_lines", "one loop over the lines", "Feeds"])
    d.box("store", 460, 50, 190, 62, "face", ["store::row", "the public call", "Promise"])
    d.box("calls", 680, 50, 190, 62, "code", ["calls::row", "first asks, then writes", "RowCalled"])
    d.box("early", 560, 160, 200, 62, "code", ["questions", "1, 4, 14 and 7:", "shape, words, slots"])
    d.box("late", 790, 160, 200, 62, "code", ["queue, cells", "6, 9, 10: counts with their", "waiting changes; 8: free end"])
    d.box("append", 560, 262, 200, 62, "code", ["calls", "one packet more:", "kind 2, (1, 0, 2)"])
    d.box("write", 790, 262, 200, 62, "code", ["cells, counts", "the new cell gets both", "operands; 1 and 2 are named"])
    d.box("put", 20, 262, 190, 62, "text", ["line_text::put_line", "3 OK 2", "output_line"])
    d.box("verdict", 240, 262, 190, 62, "text", ["serving::row_verdict", "a reply to a verdict", "verdict_of"])
    for a, b in [("parse", "serve"), ("serve", "store"), ("store", "calls"), ("early", "late"), ("append", "write")]:
        x, y, w, h = d.boxes[a]
        u = d.boxes[b][0]
        d.line([(x + w, y + h / 2), (u - 2, y + h / 2)])
    d.line([(775, 112), (775, 136), (660, 136), (660, 158)])
    d.line([(890, 222), (890, 242), (660, 242), (660, 260)])
    d.text(775, 236, "no question says no", 11, colour="#555")
    # the answer goes back; a refusal goes back before anything is written
    d.line([(990, 293), (1020, 293), (1020, 350), (335, 350), (335, 326)])
    d.line([(240, 293), (212, 293)])
    d.line([(560, 191), (335, 191), (335, 260)], dashed=True)
    d.text(448, 184, "a no: its number, nothing changed", 11, colour="#555")
    d.text(700, 366, "the new cell and the queue", 11, colour="#555")

    d.text(20, 418, "A step", 15, "bold", "start")
    d.box("step", 20, 440, 170, 62, "face", ["store::step", "the public call", "Promise"])
    d.box("lent", 215, 440, 170, 62, "code", ["questions::lent", "1 and 2"])
    d.box("take", 410, 440, 190, 62, "code", ["collector", "the oldest packet is taken;", "none waiting: idle"])
    d.box("apply", 625, 440, 190, 62, "code", ["counts", "its count changes one by", "one; its names given up"])
    d.box("stay", 840, 440, 200, 62, "code", ["marks::roots", "is the watched word", "still a root?"])
    d.box("walk", 840, 550, 200, 62, "code", ["suspects, walks", "what hangs on its cell,", "and what of it is dead"])
    d.box("free", 410, 550, 190, 62, "code", ["collector::freeing", "free the dead: lower,", "join the free list"])
    d.box("clear", 215, 550, 170, 62, "code", ["marks::clear", "the scratch"])
    d.box("mark", 625, 660, 190, 62, "code", ["marks::mark", "every reached cell,", "in the scratch"])
    d.box("sweep", 410, 660, 190, 62, "code", ["collector::sweep", "free the rest: lower,", "join the free list"])
    d.box("reply", 20, 550, 170, 62, "plain", ["reply", "kind, cells freed,", "the queue"])
    for a, b in [("step", "lent"), ("lent", "take"), ("take", "apply"), ("apply", "stay")]:
        x, y, w, h = d.boxes[a]
        d.line([(x + w, y + h / 2), (d.boxes[b][0] - 2, y + h / 2)])
    for a, b in [("walk", "free"), ("free", "clear"), ("clear", "reply"), ("mark", "sweep")]:
        x, y, w, h = d.boxes[a]
        d.line([(x, y + h / 2), (d.boxes[b][0] + d.boxes[b][2] + 2, y + h / 2)])
    d.line([(940, 502), (940, 548)])
    d.text(950, 530, "no", 12, anchor="start", colour="#555")
    d.line([(940, 612), (940, 691), (817, 691)])
    d.text(950, 640, "too many", 11, anchor="start", colour="#555")
    d.line([(410, 691), (300, 691), (300, 614)])
    d.line([(880, 502), (880, 526), (300, 526), (300, 548)], dashed=True)
    d.text(600, 520, "yes: on a sound store nothing can be freed", 11, colour="#555")
    d.write("call.svg")


if __name__ == "__main__":
    crates()
    call()
