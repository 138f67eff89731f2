#!/usr/bin/env python3
"""Respells this repository's own definitions and lemmas, in a tree that port.py has just turned.

usage: python3 tools/respell.py [FOLDER]      FOLDER is the repository; without it, the one that holds this script

Words are in snake case, and types in camel case. The table names each definition, field, constructor and lemma of
specs/ and proofs/ that was spelled otherwise. Names that Rattle makes (goals, loops, branches) are not in it, and
neither is any name of src/. It writes the files of crates/*/specs, crates/*/proofs and, outside comments and
strings, crates/*/src. It says where a new name stands in a file already.
"""

import glob
import os
import re
import sys

NAMES = {
    "Listing-laws": "ListingLaws",
    "Passed-over": "PassedOver",
    "Stays-ranked": "StaysRanked",
    "a-batch": "a_batch",
    "a-record": "a_record",
    "accepted-sorted": "accepted_sorted",
    "all-put": "all_put",
    "and-swap": "and_swap",
    "apart-front": "apart_front",
    "apart-kept-by": "apart_filter",
    "apart-pick": "apart_pick",
    "apart-ranked-in": "apart_ranked_in",
    "apart-removed": "apart_removed",
    "apart-set": "apart_set",
    "apart-sorted": "apart_sorted",
    "apart-swap": "apart_swap",
    "areMark": "are_mark",
    "askMark": "ask_mark",
    "at-end": "at_end",
    "behind-figures": "behind_figures",
    "behind-serials": "behind_serials",
    "behindMark": "behind_mark",
    "best-all": "best_all",
    "best-more-no": "best_more_no",
    "best-more-yes": "best_more_yes",
    "bidMark": "bid_mark",
    "by-book": "by_book",
    "checked-before": "checked_before",
    "checked-energy": "checked_energy",
    "checked-hour": "checked_hour",
    "checked-limit": "checked_limit",
    "checked-member": "checked_member",
    "checked-places": "checked_places",
    "checked-serial": "checked_serial",
    "closed-up": "closed_up",
    "count-additive": "count_additive",
    "count-put": "count_put",
    "count-sorted": "count_sorted",
    "cut-accepted": "cut_accepted",
    "cut-answer": "cut_answer",
    "cut-part": "cut_part",
    "cut-refused": "cut_refused",
    "cut-whole": "cut_whole",
    "each-before": "each_before",
    "each-getD": "each_get_or",
    "each-kept-by": "each_filter",
    "each-nth": "each_nth",
    "each-ranked-in": "each_ranked_in",
    "each-removed": "each_removed",
    "each-sooner-lessened": "each_sooner_lessened",
    "each-sorted": "each_sorted",
    "each-without-first": "each_without_first",
    "energy-additive": "energy_additive",
    "energy-in": "energy_in",
    "energy-out-of-range": "energy_out_of_range",
    "energy-put": "energy_put",
    "energy-sorted": "energy_sorted",
    "few-places": "few_places",
    "fieldBytes": "field_bytes",
    "figures-checked": "figures_checked",
    "figures-lessened": "figures_lessened",
    "filled-without": "filled_without",
    "first-cut": "first_cut",
    "first-order": "first_order",
    "first-ranked-in": "first_ranked_in",
    "first-that": "first_that",
    "first-that-at": "first_that_at",
    "first-that-push": "first_that_push",
    "found-put": "found_put",
    "found-sorted": "found_sorted",
    "found-stands": "found_stands",
    "hour-too-late": "hour_too_late",
    "in-front": "in_front",
    "inserted-at-rank": "inserted_at_rank",
    "keeping-no": "keeping_no",
    "keeping-read": "keeping_read",
    "keeping-yes": "keeping_yes",
    "kept-in-front": "kept_in_front",
    "kept-ranked-in": "kept_ranked_in",
    "lapsed-fits": "lapsed_fits",
    "layouts-push": "layouts_push",
    "length-kept-le": "length_kept_le",
    "length-ranked-in": "length_ranked_in",
    "length-sorted": "length_sorted",
    "lessened-first": "lessened_first",
    "lessened-first-at": "lessened_first_at",
    "lessened-first-sorted": "lessened_first_sorted",
    "lessened-put": "lessened_put",
    "lessened-sorted": "lessened_sorted",
    "limit-out-of-range": "limit_out_of_range",
    "limit-then": "limit_then",
    "lineText": "line_text",
    "lower-all": "lower_all",
    "lower-more": "lower_more",
    "lower-none": "lower_none",
    "made-answer": "made_answer",
    "mapped-more": "mapped_more",
    "market-figure": "market_figure",
    "marketAskMark": "market_ask_mark",
    "marketBidMark": "market_bid_mark",
    "member-unknown": "member_unknown",
    "most-energy": "most_energy",
    "never-worse": "never_worse",
    "no-of-old": "no_of_old",
    "no-order-at": "no_order_at",
    "no-want": "no_want",
    "none-behind": "none_behind",
    "none-cut": "none_cut",
    "none-taken": "none_taken",
    "not-layouts": "not_layouts",
    "not-touched": "not_touched",
    "nth-first": "slice_get_first",
    "nth-next": "slice_get_next",
    "nth-none": "slice_get_none",
    "nth-passes": "slice_get_passes",
    "nth-some": "slice_get_some",
    "of-hour": "of_hour",
    "of-layout": "of_layout",
    "one-put": "one_put",
    "order-at": "order_at",
    "order-in": "order_in",
    "other-hours": "other_hours",
    "page-more": "page_more",
    "page-push": "page_push",
    "passed-over-more": "passed_over_more",
    "place-within": "place_within",
    "placed-push": "placed_push",
    "put-accepted": "put_accepted",
    "put-answer": "put_answer",
    "put-answer-sorted": "put_answer_sorted",
    "put-behind": "put_behind",
    "put-figures": "put_figures",
    "put-serials": "put_serials",
    "put-sorted": "put_sorted",
    "rank-among": "rank_among",
    "rank-for": "rank_for",
    "rank-found": "rank_found",
    "rank-within": "rank_within",
    "ranked-cut": "ranked_cut",
    "ranked-if": "ranked_if",
    "ranked-in": "ranked_in",
    "ranked-in-is": "ranked_in_is",
    "ranked-kept-by": "ranked_filter",
    "ranked-lessened-first": "ranked_lessened_first",
    "ranked-put": "ranked_put",
    "ranked-without-first": "ranked_without_first",
    "refuse-if": "refuse_if",
    "removed-past": "removed_past",
    "requestText": "request_text",
    "room-for-kept": "room_for_kept",
    "room-full": "room_full",
    "room-given": "room_given",
    "room-is": "room_is",
    "room-left": "room_left",
    "room-refused": "room_refused",
    "running-all": "running_all",
    "running-put": "running_put",
    "scanned-all": "scanned_all",
    "scanned-here": "scanned_here",
    "scanned-more-no": "scanned_more_no",
    "scanned-more-yes": "scanned_more_yes",
    "serial-more": "serial_more",
    "serial-out-of-range": "serial_out_of_range",
    "shift-all": "shift_all",
    "shift-more": "shift_more",
    "signedWord": "signed_word",
    "some-place": "some_place",
    "sooner-alone": "sooner_alone",
    "sooner-comes": "sooner_comes",
    "sooner-laws": "sooner_laws",
    "sooner-stays": "sooner_stays",
    "soonest-front": "soonest_front",
    "soonest-of": "soonest_of",
    "sort-pick": "sort_pick",
    "sorted-kept-by": "sorted_filter",
    "sorted-ranked": "sorted_ranked",
    "sorted-sound": "sorted_sound",
    "spelled-limit": "spelled_limit",
    "spelled-terms": "spelled_terms",
    "stands-first": "stands_first",
    "stands-found": "stands_found",
    "stands-kept-by": "stands_filter",
    "stands-nowhere": "stands_nowhere",
    "stands-pick": "stands_pick",
    "stands-ranked-in": "stands_ranked_in",
    "stands-removed": "stands_removed",
    "stands-sorted": "stands_sorted",
    "summed-all": "summed_all",
    "summed-more-no": "summed_more_no",
    "summed-more-yes": "summed_more_yes",
    "swap-in": "swap_in",
    "take-min-by": "take_min_by",
    "take-room": "take_room",
    "taken-one": "taken_one",
    "taken-sorted": "taken_sorted",
    "taking-accepted": "taking_accepted",
    "taking-refused": "taking_refused",
    "termsLayout": "terms_layout",
    "termsText": "terms_text",
    "toldFront": "told_front",
    "total-energy": "total_energy",
    "total-energy-push": "total_energy_push",
    "with-limit": "with_limit",
    "with-serial": "with_serial",
    "withdrawalMark": "withdrawal_mark",
    "withdrawn-sorted": "withdrawn_sorted",
    "within-figures": "within_figures",
    "without-first": "without_first",
    "without-first-at": "without_first_at",
    "without-first-sorted": "without_first_sorted",
    "without-put": "without_put",
    "yes-of-old": "yes_of_old",
}

# A name of antt: letters, digits, and the signs that may stand inside one.
WORD = re.compile(r"[^\s(){}\[\];,.:\"`|λ←]+")
STRING = re.compile(r'"(?:\\.|[^"\\])*"')


def respell(text):
    return WORD.sub(lambda m: NAMES.get(m.group(0), m.group(0)), text)


def respell_code(line):
    """A line of Rust: its comment and its strings stay."""
    code, mark, comment = line.partition("//")
    out, at = [], 0
    for m in STRING.finditer(code):
        out += [respell(code[at : m.start()]), m.group(0)]
        at = m.end()
    return "".join(out) + respell(code[at:]) + mark + comment


def main(root):
    files = []
    for kind in ("specs/**/*.antt", "proofs/**/*.antt", "src/**/*.rt"):
        files += sorted(glob.glob(os.path.join(root, "crates", "*", kind), recursive=True))
    changed = 0
    for path in files:
        with open(path, encoding="utf-8") as f:
            text = f.read()
        words = set(WORD.findall(text))
        for old in words & NAMES.keys():
            if NAMES[old] in words:
                print(f"look: {path}: {old} becomes {NAMES[old]}, which stands there already")
        if path.endswith(".rt"):
            new = "".join(respell_code(line) for line in text.splitlines(keepends=True))
        else:
            new = respell(text)
        if new != text:
            with open(path, "w", encoding="utf-8") as f:
                f.write(new)
            changed += 1
    print(f"respell: {changed} of {len(files)} files")


if __name__ == "__main__":
    main(sys.argv[1] if len(sys.argv) > 1 else os.path.join(os.path.dirname(os.path.abspath(__file__)), ".."))
