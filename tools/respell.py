#!/usr/bin/env python3
"""Brings this repository's own definitions and lemmas to the spelling of today's Rattle, once.

usage: python3 tools/respell.py        at the top of the repository, right behind the toolchain's port.py

A dash in a name becomes an underscore, and in a name that begins with a capital the parts join in camel case. Names that
Rattle makes (goals, steps, their fields) and those of its library stay, and so does all code of src/ outside clauses.
"""

import os
import re

NAMES = """
Child-in Constant-at Fine-parts First-part Fits-in Follow-parts InOrder-from Of-tree Of-trees Ready-pair Ready-parts
Root-of Stands-at Stands-in Tree-leaves Worked-pair Worked-parts above-count admission-first after-append
after-length after-low all-numbered all-rows another-here any-end any-holds apart-after apart-constant apart-push
at-end at-fault at-letter back-rows bad-bytes bad-command bad-entry bare-code becomes-new begins-on below-back
below-count below-fits below-leaves below-ranked below-width built-parts byte-number byte-place byte-sentence
bytes-few bytes-from child-behind child-link child-rows child-rows-say child-slots children-linked closure-fits
closure-in closure-rules closure-says code-before-rank code-bytes code-known code-spelled code-taken codes-behind
codes-parts-behind command-in command-is command-line command-lines command-there command-words commands-are
commands-behind commands-end commands-known constant-fine constant-here constant-later constant-low constant-named
constants-apart count-above count-behind count-below cut-fit cut-length cut-source different-in drop-bytes
entries-known entry-command entry-there exact-rows extends-after extends-getD extends-length extends-more
extends-self fault-text fed-at fed-parts fed-whole few-commands few-entries few-positions few-slots filled-all
filled-by fine-behind fine-parts-behind fine-parts-rise fine-rises fine-small first-fault first-in first-part-in
first-part-index first-part-slot first-part-within first-rules first-within fit-below fit-child fit-into fit-mono
fit-root fits-table follow-from follow-in follow-parts-from follow-parts-in follow-parts-slot follow-parts-within
follow-slot follow-within found-next from-known front-commands front-rows has-constant holds-bit holds-cut holds-or
holds-past holds-xor holds-zero in-back in-ends in-first in-fits in-fitting in-order-count in-order-operands
in-order-positions in-order-push in-ranked in-ranks inhabited-parts is-closure is-constant is-node is-product
judged-bytes judged-end judged-fault judged-from judged-more judged-ok judged-refused judged-turn kept-length
lane-part lane-stays last-part later-step lead-length leaf-11 leaf-alone leaf-back leaf-ends leaf-on leaf-or-not
leaf-ranked leaf-stays length-listed length-with-one lines-push link-names link-number link-place link-rows
local-below local-in lone-code lone-code-is lone-first lone-known low-length low-slots map-answered map-bytes
map-command-at map-lettered map-node map-node-is map-node-operands map-some map-spelled map-stands mapped-all
mapped-more met-here mid-is middle-is min-most name-held name-not-held named-now named-old names-end names-front
names-within never-reached new-constant new-low new-position next-command next-laid next-name next-rows next-turn
no-commands no-entry no-fault no-letter no-parts no-pattern no-trees node-20 node-answer node-fine node-first
node-is node-operands node-tests none-numbered none-under not-both not-whole number-within numbered-append
numbered-behind numbered-codes numbered-command numbered-commands numbered-fine numbered-slots numbered-small
numbered-tree numbered-two old-or-new one-added one-leaf one-listed one-meaning one-more-step one-numbered one-put
one-step one-under or-digit other-lane other-lane-out own-fit own-rows-say pair-in part-ends parts-before-table
parts-begin parts-behind parts-commands parts-commands-behind parts-fit parts-rows parts-rows-many parts-rows-say
parts-small parts-split pattern-answered pattern-bytes pattern-command-at pattern-first pattern-found
pattern-lettered pattern-node pattern-place pattern-read pattern-some pattern-spelled pattern-stands pattern-there
peel-closure peel-leaf peel-node peel-product peel-sum position-line position-lines position-more position-name
position-named position-words positions-after positions-grow positions-push power-down product-back product-child
product-ends product-fits product-in product-length product-on product-puts product-ranked product-root product-some
product-within pushed-commands pushed-count put-into put-leaves put-none puts-child puts-fits puts-ranks puts-root
puts-taken puts-width rank-at rank-known rank-of rank-read ranked-here reached-says read-on read-there ready-closure
ready-first ready-last ready-node ready-product ready-rest ready-sum relabel-expr relabel-none relabel-parts
replaced-back replaced-ends replaced-on replaced-some room-before room-for-one room-test root-and-rest root-link
root-linked root-row root-row-says root-rows root-rows-length rows-exact rows-many rows-missing rows-there
said-links same-fault same-judged sample-bytes sample-commands sample-links sample-numbered sample-operands
sample-rows sample-slots say-any say-append say-both say-change say-kept say-map say-some says-bit says-cut says-or
second-roots second-rules second-slot slot-fits slot-line slot-lines slot-words slots-behind slots-constant
slots-many slots-more slots-of slots-of-parts slots-parts-behind slots-push slots-two slots-under small-front
small-last some-command spell-few spell-known spell-push stand-for standing-from standing-positions standing-push
stands-so stands-there step-ends step-on step-within still-even stray-operand stray-points sum-in table-accepts
table-from table-judged table-known tail-bytes then-known two-below two-parts under-length uneven-in unreached-links
unreached-operands whole-linked width-none within-child within-root worked-cases worked-closure worked-leaf
worked-more worked-node worked-none worked-pair worked-product worked-some worked-sum written-list xor-digit
zero-before-rank zero-code
""".split()

ALIASES = ["Numbered-of", "position-of", "commands-of", "part-commands", "found-there", "all-a", "all-b"]
OTHER = {"extends-getD": "extends_get"}
WORD = re.compile(r"[\w'-]+")
MADE = ("c.", "w.", "l.", "g.")


def respelled(name):
    if name in OTHER:
        return OTHER[name]
    if name[0].isupper():
        return "".join(part[0].upper() + part[1:] for part in name.split("-"))
    return name.replace("-", "_")


TABLE = {name: respelled(name) for name in NAMES + ALIASES}


def turn(text, answers=False):
    """The text with each of our names respelled; in answers not where it is a field of what Rattle makes."""

    def one(found):
        name, at = found.group(0), found.start()
        made = answers and text.endswith(MADE, 0, at) and not WORD.match(text[max(at - 3, 0)])
        return name if made else TABLE.get(name, name)

    return WORD.sub(one, text)


def turn_docs(text):
    return re.sub(r"`[^`\n]+`", lambda found: turn(found.group(0)), text)


def main():
    assert len(set(TABLE.values())) == len(TABLE), "two names fall together"
    for top in ("crates", "docs", "README.md"):
        paths = [top] if os.path.isfile(top) else [
            os.path.join(folder, f) for folder, _, files in os.walk(top) if "/out" not in folder for f in files
        ]
        for path in paths:
            if not path.endswith((".antt", ".rt", ".md")):
                continue
            with open(path, encoding="utf-8") as f:
                old = f.read()
            answers = os.path.basename(path) in ("Answers.antt", "Invariants.antt")
            new = turn_docs(old) if path.endswith(".md") else turn(old, answers)
            if new != old:
                with open(path, "w", encoding="utf-8") as f:
                    f.write(new)


if __name__ == "__main__":
    main()
