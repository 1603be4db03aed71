#!/usr/bin/env python3
"""Writes the proofs of the doors: walks.py CRATE-FOLDER

A door is an exported function of src/lib.rt that takes a pointer to a desk, a waker or an update, and hands what else it is given to one
method of what lies there. Its proof lends that to the method for the call, and takes it back. It depends on the parameters' types
alone, so it is made here, from the door's own signature: proofs/DOOR/Proof.antt. A door whose parameters are of another kind than
those below is refused."""
import os
import re
import sys

# what lies at a door's pointer: its library, module and name, and the words for its row, that it lies there, and that one is left there
THINGS = {
    "Desk": ("c_screen", "desk", "desk_row", "holds", "leaves"),
    "DeskUpdate": ("c_screen", "update", "update_row", "holds_update", "leaves_update"),
    "ServerDesk": ("c_server", "desk", "desk_row", "holds", "leaves"),
    "ServerWaker": ("c_server", "waker", "waker_row", "holds_waker", "leaves_waker"),
}
# the methods that a thing has of the trait `DrawByCode`, by the names of its impl's module and of the impl
DRAWING = {
    "Desk": ("desk", "DeskDrawByCode"),
    "ServerDesk": ("drawing", "ServerDeskDrawByCode"),
}
with open(os.path.join(os.path.dirname(os.path.abspath(__file__)), "../../crates/c_screen/src/draw.rt"), encoding="utf-8") as it:
    DRAWS = set(re.findall(r"^    fn (\w+)\(", it.read(), re.M))
WIDTHS = {"u8": "w8", "u16": "w16", "u32": "w32", "u64": "w64", "usize": "w64", "i8": "w8", "i16": "w16", "i32": "w32", "i64": "w64"}
ROWS = {"Told": ("c_screen", "told"), "Corners": ("c_screen", "corners"), "Visit": ("c_server", "visits"), "PixelLayout": ("c_screen", "pixels")}

STEPS = """◌≡◌, ℕ, List, [], ◌∷◌, ◌++◌, refl, vint, vptr, of_z, w8, w16, w32, w64, proved, full_share, id⊢, ftrue, fex, flft, flent, named, tables, ‵, raw, ◌⊛◌, some, later, prop, ◌$◌, ◌∵◌, !, qed, done, move, keep, drop, use1, use2, use3, split, join, fsplit, fjoin, fpick, fpack, pick, await, regoal, suffices, group, enter, of_opd, addr, stop, no_more, and_then, returns, alloc_all, pass_all, free_all, look_at, get, through, sets, lands_as, lft_new, lft_end, u8, u16, u32, u64, usize, i32, i64, yes, lends_ref, ref_back, Body, mem, uint_vals, uint_Tells, uint_Lawful, sint_Tells, sint_Lawful, shr_slice_vals, shr_slice_Tells, mut_slice_vals, mut_slice_Tells, Ptr, RawPtr, block_ptr, lies_at, in_a_block, rawptr_vals, rawptr_Tells, MutRef, plain, shr_slice_of, nothing, peeks, shows, Is, owns, types_at, calls_at, lasts, Lasts, triple_of, Stays, walk_of, stay_dropped, Goes-dropped, gave_slice, Goes-gave_slice, at_exit, ends_at, from, fld, hop, look_in_at, sub, whole, agg, get_in, feq_l, framed, WpFn"""

HEAD = """-- `{door}` lends the desk at its pointer to `{method}` for the call, and passes on what else it was given. Made by c/tools/walks.py.
use Rattle.{crate}.proofs.Steps.{{{steps}}}
use contract.Monad.{{fact}}
use denote.Steps.{{heard}}
use Rattle.{crate}.specs.Lying.{{{row}, {holds}, {leaves}}}
{uses}{rows}use Rattle.{crate}.specs.contracts.{door} as f
use Rattle.{crate}.proofs.{door}.Statement.{{statement}}
use Rattle.{crate}.proofs.{door}.Code as code
use Rattle.{library}.specs.contracts.{module}.{struct}.{method} as g
use Rattle.{library}.proofs.{module}.{struct}.{method}.Met.{{met}}
"""

WALK = """
abbrev stayed : Stays f.ended.signature.params f.ended.kept
stayed = {stay}

pub {door}_spec : {{M : Type 1}} → statement M
{door}_spec 𝓤 𝓛 𝓜 𝓡 wired =
    let c = f.clauses 𝓛 𝓜.mem 𝓡.returns in let W = walk_of 𝓛 f.ended stayed c in let 𝓣 = tables 𝓤 𝓛.H 𝓜 𝓡 𝓡.env in
    proved 𝓛 f.ended stayed c 𝓜 𝓡 {goes}
    f.Key.name code.function (code.unfolded 𝓤 𝓛.H 𝓜 𝓡 wired)
    (λ κs. {vals}) (λ κs. {tells}) (λ κs qs bounds a s are.
    let y : Ptr → W.Ghost = λ p. ((κs, qs, bounds, (p, a.1), (rawptr_vals p, {words})), s) in
    qed 𝓛 ((({tokens}) ⊛ ‵ (owns (types_at f.signature.params κs) a (y a.0).0.4)) ∷ ‵ ({holds} a.0 s) ∷ []) ∵ split ! $ move ! (1 ∷ []) $ fsplit ! $ drop ! $ move ! (2 ∷ []) $
    -- [what lies at the pointer; the other parameters; the tokens]
    in_a_block ! a.0 (λ p. {holds} p s) (id⊢ 𝓤 _) (λ b o e.
    regoal ! (λ p. prop (WpFn 𝓤 𝓛.H 𝓣.C 𝓣.Λ code.function (rawptr_vals p ++ {nested}) (W.post (y p)))) e refl $
    enter ! _ _ _ _ _ $ alloc_all ! (λ l. pass_all ! refl {typed} $
    sets ! (of_opd ! (get ! refl)) refl (tt, tt) $
    sets ! (addr ! (through ! refl (stop !))) refl (tt, tt) $
{reborrows}    lft_new ! tt (λ α. move ! (1 ∷ []) $ let κ : List ℕ = α ∷ [] in
    use1 𝓛 (later (some (λ (γ : ℕ). ‵ ((MutRef (named 0) κ {row}).own_val (record {{ ref_ptr = (b, o); ghost_name = γ; now = s }}) (vptr b o ∷ [])) ⊛ ‵ (flent κ (Body (mem {row}) b o γ)))))
    (lends_ref 𝓛 {row} (named 0) κ s b o) $ await ! tt $ pick ! (λ γ. split ! $
    -- [the loan; what the lender keeps; the token of α; the other parameters; the tokens]
    let G = triple_of 𝓛 g.signature (g.spec 𝓛 𝓜.mem 𝓡.returns) in
    let z : G.Ghost = (((κ, κs), (full_share, qs), tt, (record {{ ref_ptr = (b, o); ghost_name = γ; now = s }}, a.1), (vptr b o ∷ [], (y a.0).0.4.1)), tt) in
    move ! (0 ∷ 3 ∷ []) $ fjoin ! $ move ! (2 ∷ 3 ∷ 0 ∷ []) $ join ! $ join ! $ nothing ! $ move ! (1 ∷ 0 ∷ []) $ use2 𝓛 (raw (G.pre z)) (id⊢ 𝓤 _) $
    calls_at ! (framed 𝓤 𝓛.H 𝓜 (tables 𝓤 𝓛.H 𝓜 𝓡 𝓡.env)) G (met 𝓤 𝓛 𝓜 𝓡 (code.calls-{library}::{module}::{struct}::{method} 𝓡.env wired)) z
    ({evaluated}) (λ v.
    use1 𝓛 (later (some (λ (r : {result}.Denot). ((‵ (flft κ full_share) ⊛ ({tokens})) ⊛ ‵ ({result}.own_val r (v ∷ []))) ⊛ some (λ (ws : Lasts g.ended z.0.0 z.0.3). ‵ (lasts g.ended z.0.0 z.0.3 ws) ⊛ raw (fact 𝓤 ({so})))))) (id⊢ 𝓤 _) $
    await ! tt $ pick ! (λ r. split ! $ split ! $ split ! $ lft_end ! tt $
    -- [α is over; the tokens; the result; what the callee left; what the lender keeps]
    move ! (3 ∷ []) $ pick ! (λ ws. split ! $ move ! (1 ∷ []) $ heard ! _ (λ so. fsplit ! $ fsplit ! $
    -- [the desk's last value; its borrow; the others' last values; α is over; the tokens; the result; what the lender keeps]
{length}    move ! (3 ∷ 6 ∷ 0 ∷ []) $
    use3 𝓛 (later (‵ ((mem {row}).own_at ws.0 b o))) (ref_back 𝓛 {row} κ γ ws.0 b o) $ await ! tt $
    -- [the desk; its borrow; the others' last values; the tokens; the result]
    move ! (4 ∷ []) $ peeks ! {result} (Is {result}) (shows 𝓛 {result}) r (v ∷ []) (λ is. lands_as ! refl refl {result_typed} $
    returns ! (look_at ! 0 refl) $ free_all ! refl $ keep ! (1 ∷ 4 ∷ 3 ∷ 0 ∷ []) $
    suffices ! _ (ends_at 𝓛 f.ended stayed c (y (block_ptr b o)) v r (tt, ws.1) {fit}) $
    fpack ! ({so}) (λ _. {holds} (block_ptr b o) ws.0) so $
    fpack ! {row}.Denot (λ t. fex ({so_of_t}) (λ _. {holds} (block_ptr b o) t)) ws.0 $
    -- [what is served; the tokens; the others' last values; the result]
    move ! (2 ∷ []) $ nothing ! $ fjoin ! $ move ! (2 ∷ 0 ∷ 3 ∷ []) $ group ! 3 $ done !"""


# what a `&mut [T]` is lent again by, and where its length stays the same in what the method left of it
REBORROW = """    sets ! (addr ! (from ! (fld ! refl (hop ! (look_in_at ! {local} (sub ! 0 refl (whole !))) (stop !))))) refl (tt, tt) $
    sets ! (agg ! (and_then ! (get ! refl) (and_then ! (get_in ! (fld ! refl (stop !)) (sub ! 1 refl (whole !))) (no_more !)))) refl (tt, (tt, (record {{ fits = {fits} }}, tt))) $
"""


def length_of(kinds):
    written = [number for number, (kind, _) in enumerate(kinds) if kind == "written"]
    if not written:
        return ""
    (before,) = written
    return (
        "    move ! (2 ∷ []) $ " + "fsplit ! $ move ! (1 ∷ []) $ " * before + "fsplit ! $ fsplit ! $ fsplit ! $ move ! (1 ∷ []) $ feq_l ! (λ same. fjoin ! $ fjoin ! $ "
        + "move ! (1 ∷ 0 ∷ []) $ fjoin ! $ " * before + "move ! (1 ∷ 2 ∷ 0 ∷ []) $\n"
    )


def at(root, number):
    return root + ".1" * number + ".0"


def tuple_of(parts):
    made = "tt"
    for part in reversed(parts):
        made = f"({part}, {made})"
    return made


def appended(words):
    made = "[]"
    for word in reversed(words):
        made = f"({f'({word})' if ' ' in word else word} ++ {made})"
    return made


def kind_of(text):
    if text in WIDTHS:
        return "number", text
    if text.startswith("&mut [") and text[-1] == "]":
        return "written", text[6:-1]
    if text.startswith("&[") and text[-1] == "]":
        return "read", text[2:-1]
    raise SystemExit(f"walks.py: no walk for a parameter of type {text}")


def row_of(element):
    return element if element in WIDTHS else f"{element}-row"


def typed(kind, name, given, told):
    """What shows that a parameter's value is of its type, and its words."""
    if kind == "number" and name[0] == "i":
        return f"((sint_Lawful 𝓛 {WIDTHS[name]}).typed {given} _ {told}).0", f"vint {WIDTHS[name]} (of_z {WIDTHS[name]} {given}) ∷ []"
    if kind == "number":
        return f"(tt, record {{ fits = {told}.1 }})", f"uint_vals {WIDTHS[name]} {given}"
    if kind == "read":
        return f"(tt, (tt, (record {{ fits = {told}.0.1.0 }}, tt)))", f"shr_slice_vals {given}"
    return f"(tt, (tt, (record {{ fits = {told}.0.1.0 }}, tt)))", f"mut_slice_vals {given}"


def clause_of(text, names, kinds, after):
    """A door's clause in the words of its walk."""
    for number, (name, (kind, _)) in enumerate(zip(names, kinds), 1):
        if kind == "written":
            text = text.replace(f"{name}.old", at("a", number) + ".now").replace(f"{name}.new", at("ws", number))
        else:
            text = re.sub(rf"(?<![\w.]){name}(\.entry)?(?![\w]|\s=)", at("a", number), text)
    return re.sub(r"\bbefore\b", "s", re.sub(r"\bafter\b", after, re.sub(r"\bresult\b", "r", text)))


def walk(crate, door, struct, method, names, kinds, result, clause, uses):
    library, module, thing, holds, leaves = THINGS[struct]
    if method in DRAWS:
        module, struct = DRAWING[struct]
    loans = sum(kind != "number" for kind, _ in kinds)
    vals, tells, stay, goes, shown, words, fit = ["rawptr_vals"], ["rawptr_Tells"], ["stay_dropped _ yes"], [f"Goes-dropped 𝓛 {loans} (plain (λ _. RawPtr)) yes (λ κs x w. refl)"], ["(tt, tt)"], [], ["tt"]
    loan = 0
    for number, (kind, name) in enumerate(kinds, 1):
        is_typed, word = typed(kind, name, at("a", number), at("are", number))
        shown.append(is_typed)
        words.append(word)
        fit.append("same" if kind == "written" else "tt")
        if kind == "number":
            width = WIDTHS[name]
            vals.append(f"(λ z. vint {width} (of_z {width} z) ∷ [])" if name[0] == "i" else f"uint_vals {width}")
            tells.append(f"sint_Tells {width}" if name[0] == "i" else f"uint_Tells {width}")
            stay.append("stay_dropped _ yes")
            goes.append(f"Goes-dropped 𝓛 {loans} (plain (λ _. {name})) yes (λ κs x w. refl)")
            continue
        row, life = row_of(name), at("κs", loan)
        if kind == "read":
            vals.append("shr_slice_vals")
            tells.append(f"shr_slice_Tells (named {loan}) {life} {row}")
            stay.append("stay_dropped _ yes")
            goes.append(f"Goes-dropped 𝓛 {loans} (shr_slice_of ({loan} ∷ []) tt (plain (λ _. {row}))) yes (λ κs x w. refl)")
        else:
            vals.append("mut_slice_vals")
            tells.append(f"mut_slice_Tells (named {loan}) {life} {row}")
            stay.append(f"gave_slice ({loan} ∷ []) tt (plain (λ _. {row}))")
            goes.append(f"Goes-gave_slice 𝓛 {loans} {loan} tt (plain (λ _. {row}))")
        loan += 1
    tokens = " ⊛ ".join([f"‵ (flft {at('κs', i)} {at('qs', i)})" for i in range(loans)] + ["‵ ftrue"])
    evaluated = "no_more !"
    for _ in range(len(kinds) + 1):
        evaluated = f"and_then ! (get ! refl) ({evaluated})"
    structs = sorted({name for kind, name in kinds if kind != "number" and name not in WIDTHS})
    text = HEAD.format(
        door=door, method=method, crate=crate, library=library, module=module, struct=struct, row=thing, holds=holds, leaves=leaves, steps=STEPS, uses=uses,
        rows="".join("use Rattle.{}.specs.contracts.{}.{it}.{{the_row as {it}-row}}\n".format(*ROWS[it], it=it) for it in structs),
    )
    body = WALK.format(
        door=door, method=method, library=library, module=module, struct=struct, row=thing, holds=holds, stay=tuple_of(stay), goes=tuple_of(goes), vals=tuple_of(vals),
        tells=tuple_of(tells), words=tuple_of(words), tokens=tokens, nested=appended(words), typed=tuple_of(shown),
        reborrows="".join(REBORROW.format(local=number + 1, fits=at("are", number) + ".0.1.0") for number, (kind, _) in enumerate(kinds, 1) if kind == "written"),
        length=length_of(kinds), so=clause_of(clause, names, kinds, "ws.0"), so_of_t=clause_of(clause, names, kinds, "t"),
        evaluated=evaluated, result=result, fit=tuple_of(fit),
        result_typed=f"((sint_Lawful 𝓛 {WIDTHS[result]}).typed r _ is).0" if result[0] == "i" else f"((uint_Lawful 𝓛 {WIDTHS[result]}).typed r _ is).0",
    )
    opened = body[body.rindex("\npub ") :]
    return text + body + ")" * (opened.count("(") - opened.count(")")) + "\n"


def doors_in(text):
    door = re.compile(r'pub unsafe extern "C" fn (\w+)\(\s*at: \*mut \w+,?([^)]*)\) -> (\w+)\s*ghost before: [^\n]*\s*requires\* [^\n]*\s*ensures\* \{ sem 𝓛 \(\w+ at \(λ after\. (.*?)\)\) \}\s*\{\s*(\w+)::(\w+)\(', re.S)
    for name, given, result, clause, struct, method in door.findall(text):
        parameters = [it.strip().split(": ", 1) for it in re.split(r",\s*(?=\w+: |$)", given.strip().rstrip(",")) if it.strip()]
        yield name, struct, method, [it[0] for it in parameters], [kind_of(it[1]) for it in parameters], result, " ".join(clause.split())


def main():
    folder = sys.argv[1]
    crate = os.path.basename(os.path.abspath(folder))
    with open(f"{folder}/src/lib.rt", encoding="utf-8") as it:
        text = it.read()
    # what the doors' clauses cite, a walk cites too
    cited = "".join(it[len("ghost ") :].rstrip(";") + "\n" for it in re.findall(r"^ghost use [^;]*;$", text, re.M) if f"Rattle.{crate}" not in it and "Rattle." in it)
    for door, struct, method, names, kinds, result, clause in doors_in(text):
        os.makedirs(f"{folder}/proofs/{door}", exist_ok=True)
        with open(f"{folder}/proofs/{door}/Proof.antt", "w", encoding="utf-8") as out:
            out.write(walk(crate, door, struct, method, names, kinds, result, clause, cited))
        print(door)


main()
