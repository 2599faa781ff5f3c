#!/usr/bin/env python3
"""Respells this repository's own definitions and lemmas: words in snake case, types in camel case.

usage: python3 tools/respell.py            at the top of the repository, once, after the kit's port.py

It goes by whole words through the clauses and ghost lines of .rt files, the .antt files, the must-fail edits and, between backticks, the pages
of docs/ and the README. Names of src/ have no dash, so none of them is touched. A name that a file imports from the library stays as it is
there, except behind a dot, where it is a field of this repository's. Lemmas on rings that are spelled as the library spells its own on numbers
(a dash joins two operations, as in mul-zero) keep their names.
"""

import os
import re
import sys

# a dash becomes an underscore
PLAIN = """
a-both a-mul a-nat a-neg a-pow a-pow-suc a-var a-zero above-one above-term abscissas-samples add-neg add-swap add-zero after-alpha
after-checking after-constraint after-proving after-zeta agree-everywhere all-blank all-steps all-within alpha-scheduled answer-of
apart-one at-alpha at-most-ten at-zeta babybear-prime back-round basis-append basis-first basis-list basis-next basis-one basis-zero
before-alpha before-check before-zeta below-term beside-by beside-of bits-within bracket-standing break-at breaks-below by-digit
by-halves by-inverse by-log by-norm by-rest by-room by-test byte-in byte-is byte-kept c-some calls-kept cancel-factor cells-add
cells-mul checking-keeps choose-all choose-divided choose-past chunks-needed codes-length codes-of combined-from combined-more
commit-any commit-if conjugate-base conjugate-root constrains-kept constraint-answer constraint-at constraint-keeps constraint-left
constraint-or-refusal constraint-outcome constraint-sponge coset-at coset-distinct coset-doubled coset-from coset-interpolated
coset-length coset-parted coset-points-distinct coset-scaled coset-separate coset-unparted coset-value cosets-apart count-is
counted-meaning counted-steps d-large decimal-after declared-degree degree-operations difference-add difference-mul difference-neg
differs-no differs-yes digit-step distance-small distinct-at distinct-samples divided-chosen drop-back duplex-steps each-abscissa
each-apart each-front each-point each-sample earlier-back eleven-no-square end-within ends-agree equal-of-sub equal-of-zeros eval-after
eval-basis eval-difference eval-lagrange eval-padded eval-powers eval-product eval-quotient eval-scaled eval-spread eval-sum eval-sums
eval-zeros exactly-one exactly-two fact-holds factor-0 factor-1 factor-pair factor-zero few-points first-flag first-is first-of-lines
fitting-fits fitting-keeps fitting-less fitting-none fitting-some fitting-within fold-or-refusal folded-by folder-holds folds-to-four
following-of found-accepted found-sponge from-walk front-is front-next front-one fronted-more full-shape g-one geometric-add
geometric-double geometric-first geometric-next geometric-none geometric-one geometric-sum geometric-times goes-on-kept group-product
h-one half-power half-turn-square if-covered if-there inverse-by inverse-is inverse-nonzero inverse-number inverse-of inverse-right
is-bit is-broken is-d is-e is-end is-first is-root is-small is-suc is-transition k-is keeps-add keeps-apart keeps-coset keeps-distinct
keeps-geometric keeps-minus keeps-mul keeps-neg keeps-one keeps-plus keeps-pow keeps-times keeps-turn keeps-zero kept-agree
lagrange-after lagrange-list lagrange-unique lagrange-values largest-degree last-flag last-is last-of-lines last-six later-all
later-back later-tail leaf-degree least-hit least-next least-passes leaves-domain leaves-domain-kept left-positive length-abscissas
length-after length-basis length-coset-from length-difference length-fronted length-lagrange length-linear length-of-map length-padded
length-powers length-product length-quotient length-samples length-scaled length-spread length-sum length-sums length-terms line-value
list-after list-is log-chunks log-end log-from log-hit log-miss log-none log-small log-some log-within log2-ceil m-is main-is main-next
meaning-kept mod-mul-mod more-in more-lines moved-first moved-points moved-second mul-add mul-mod-mod mul-neg mul-one name-bytes nat-add
nat-differs nat-is nat-mul nat-nonzero nat-one nat-zero-add nat-zero-mul natural-of neg-add neg-mul neg-neg neg-zero never-twice
next-covers next-in next-is next-left no-divisor no-root none-added none-divides none-of-rising none-of-zero none-selected norm-zero
not-one number-bytes number-of-bit number-of-zero numbered-by of-degree of-each of-step of-value off-first off-last omega-add on-first
on-last one-if one-interpolant one-inverse one-more-row one-ne-zero one-share ood-goes or-zero other-factor other-size other-words
out-of-domain pair-basis pair-extends pair-inverse pair-laws pair-ops pairs-basis pairs-extend pairs-inverse pairs-laws pairs-nat
passed-second period-value periodic-by picker-holds picker-keeps piece-0 piece-1 piece-by piece-points piece-terms place-below
placed-points plain-shape point-is point-power points-of polynomial-at polynomial-is polynomial-short pow-end pow-first pow-halves
pow-later pow-mod pow-mul pow-ne-zero pow-none pow-one pow-one-more pow-pow pow-square pow-start pow-twice pow-two pow-whole power-add
power-is power-one power-squared power-value powers-list preprocessed-fault preprocessed-next prime-by-trial prod-add prod-front
prod-mul prod-same product-next product-nonzero product-start progression-distinct progression-doubled progression-length
progression-parted progression-separate progression-unparted prover-alpha prover-answer prover-bracket prover-closes prover-finishes
prover-left prover-opens prover-outcome prover-seen prover-shown prover-shows prover-sponge prover-zeta proving-keeps public-in
publics-is q-is q-large quotient-more random-fault ratio-apart ratio-power read-in residue-inverse residue-laws residue-numbered
residue-ops residues-adic residues-inverse residues-laws residues-nat rest-is ring-from ring-laws rises-at rising-of-none rolling-steps
room-is root-bound root-count root-cycle root-order root-power root-turn root-whole root-within roots-of-agreeing roots-of-quotient
row-or-unfit row-value run-after same-coefficients same-constraint same-duplex same-meaning same-of-sub same-value same-values sample-at
samples-back schedule-alpha schedule-zeta second-passes seed-of seen-after seen-zero set-flag seventeen-prime seventeens-adic
seventeens-nat shares-none shift-nonzero size-nonzero small-length small-points some-inverts some-lines some-none some-of-inverts
some-or-zero some-selected spelled-below spelled-in sponge-of spread-value square-pow square-zero squared-again squared-power station-in
station-law station-layout step-bytes step-length step-nonzero steps-count sub-ne-zero sub-of-same sum-in sum-list sums-one sums-zero
takes-byte takes-more term-at term-differs term-later term-piece term-zero terms-apart terms-distinct terms-later the-byte thirty-one
three-layout times-choose to-alpha to-answer to-left to-zeta total-inverts transition-flag transition-is transition-of turned-of
turned-points two-words unless-kept unless-nonzero unless-zero unset-flag value-each value-meaning value-more value-nat value-negate
value-normal value-one value-operations value-plus value-power value-scale value-shift value-times value-vanishes value-variable
values-after vanish-of vanishes-at vanishing-at vanishing-coset vanishing-from vanishing-next vanishing-of verifier-alpha
verifier-answer verifier-bracket verifier-closes verifier-finishes verifier-left verifier-opens verifier-outcome verifier-seen
verifier-shown verifier-shows verifier-sponge verifier-zeta weight-layout weighted-is whole-turn without-return words-length zero-duplex
zero-factor zero-has-none zero-norm zero-of-product zero-or-inverts zero-rolling zeros-of-quotient zeta-scheduled
""".split()

# types and records, and lemmas that would have the name of a function
OTHER = {
    "Declared-suffices": "DeclaredSuffices",
    "First-failing": "FirstFailing",
    "First-ok": "FirstOk",
    "Passed-first": "PassedFirst",
    "Passed-second": "PassedSecond",
    "Reads-station": "ReadsStation",
    "Rounded-up": "RoundedUp",
    "Second-ok": "SecondOk",
    "Seed-lengths": "SeedLengths",
    "Shift-is": "shift_is",
    "Station-law": "StationLaw",
    "Walk-in": "WalkIn",
    "Zero-in": "ZeroIn",
    "coset-product": "coset_product_lem",
    "seed-length": "seed_length_lem",
}

NEW = {n: n.replace("-", "_") for n in PLAIN} | OTHER
EDGE = r"A-Za-z0-9_'\u2080-\u2089\u2115\u2124"
WORD = re.compile(r"(?<![" + EDGE + r"-])(?:" + "|".join(sorted(map(re.escape, NEW), key=len, reverse=True)) + r")(?![" + EDGE + r"]|-[" + EDGE + r"])")
LIBRARY = re.compile(r"use Rattle\.std\.[\w.]+\.\{([^}]*)\}")


def library_names(text):
    """The names that the file takes from the library under the library's own spelling."""
    items = [i.strip() for group in LIBRARY.findall(text) for i in group.split(",")]
    return {i for i in items if " as " not in i} | {i.split(" as ")[0] for i in items if " as " in i}


def respelled(text):
    library = library_names(text)

    def new(m):
        if m.group() in library and text[m.start() - 1] != ".":
            return m.group()
        return NEW[m.group()]

    return WORD.sub(new, text)


def in_code(line):
    """A line of a page: only what stands between backticks."""
    parts = line.split("`")
    return "`".join(WORD.sub(lambda m: NEW[m.group()], p) if i % 2 else p for i, p in enumerate(parts))


def in_source(text):
    """A .rt file: comments stay as they are."""
    lines = text.split("\n")
    library = library_names(text)
    out = []
    for line in lines:
        code, mark, comment = line.partition("//")
        out.append(WORD.sub(lambda m: m.group() if m.group() in library and code[m.start() - 1] != "." else NEW[m.group()], code) + mark + comment)
    return "\n".join(out)


def main():
    changed = 0
    for folder, dirs, files in os.walk("."):
        dirs[:] = sorted(d for d in dirs if d not in ("out", ".git", "target", "tools"))
        for f in sorted(files):
            path = os.path.join(folder, f)
            if f == "PORT.md" or not f.endswith((".rt", ".antt", ".edit", ".md")):
                continue
            with open(path, encoding="utf-8") as it:
                text = it.read()
            if f.endswith(".md"):
                turned = "\n".join(in_code(l) for l in text.split("\n"))
            elif f.endswith(".rt"):
                turned = in_source(text)
            else:
                turned = respelled(text)
            if turned != text:
                with open(path, "w", encoding="utf-8") as it:
                    it.write(turned)
                changed += 1
    print(f"respell: {len(NEW)} names, {changed} files changed")
    return 0


if __name__ == "__main__":
    sys.exit(main())
