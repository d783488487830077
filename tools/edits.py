#!/usr/bin/env python3
"""Rewrites the must-fail edits whose text the respelling left behind, each with the meaning that it had. Run once, at the top, after respell.py."""
from pathlib import Path

EDITS = {
    "geometry/law-exchanged": ("src/lib.rt", "ensures same { SameRect }", "ensures same { IsBox }"),
    "region/law-exchanged": ("src/lib.rt", "ensures unique { Unique }", "ensures unique { Apart }"),
    "layout/reload-without-room": ("specs/Laws.antt", "work_room (sizes_of z) ≤ length work' → Loaded work' size r", "length work' ≤ work_room (sizes_of z) → Loaded work' size r"),
    "layout/soundness-unchecked": ("specs/Head.antt", "is_some (slice_index_or os (k - 1) None)", "is_some (slice_index_or os k None)"),
    "layout/spare-any-length": ("specs/Laws.antt", "(size : ℕ) → length v ≡ length w → sound_in v size", "(size : ℕ) → length v ≤ length w → sound_in v size"),
    "layout/windows-one-more": ("specs/Sizes.antt", "(pick (in_range 0 255 z.windows)", "(pick (in_range 0 256 z.windows)"),
    "model/any-owner": ("specs/Desk.antt", "mine d c n = (window d n).there && (window d n).owner == c", "mine d c n = (window d n).there && (window d n).owner == (window d n).owner"),
    "model/back-in-front": ("specs/Desk.antt", "pick (front d ns x y == 0) (pick (in_window (window d n) x y) (suc n) 0) (front d ns x y)", "pick (in_window (window d n) x y) (suc n) (front d ns x y)"),
    "model/close-keeps-keys": ("specs/Desk.antt", "(pick (d.keys == suc n) 0 d.keys)", "(pick (d.keys == n) 0 d.keys)"),
    "model/close-keeps-order": ("specs/Desk.antt", "(with_order (with_window d n nothing) (without n d.order))", "(with_order (with_window d n nothing) (without (suc n) d.order))"),
    "model/empty-cell": ("specs/Grid.antt", "pick ((nat_lt a b && nat_lt c c') && s a c)", "pick ((nat_le a b && nat_lt c c') && s a c)"),
    "model/fill-too-wide": ("specs/Desk.antt", "(λ i j. pick (in_box x y w h i j) colour", "(λ i j. pick (in_box x y (suc w) h i j) colour"),
    "model/keys-to-program-0": ("specs/Desk.antt", "told_key d k (suc n) = ((window d n).owner, typed n k) ∷ []", "told_key d k (suc n) = (0, typed n k) ∷ []"),
    "model/move-not-sent": ("specs/System.antt", "(front_at d' i j == suc n && not (same_place", "(front_at d' i j == 0 && not (same_place"),
    "model/raise-to-the-back": ("specs/Desk.antt", "(with_order d (without n d.order ++ n ∷ [])", "(with_order d (n ∷ without n d.order)"),
    "model/refused-paint-sent": ("specs/System.antt", "(z.built (kind e) && taken z d e) && hurt", "(z.built (kind e) && true) && hurt"),
    "model/step-tells-anything": ("specs/Kept.antt", "pub tells_it : tells (happens z s e) ≡ (after z d e).1", "pub tells_it : tells (happens z s e) ≡ tells (happens z s e)"),
    "model/told-after": ("specs/System.antt", "; told = r.1 }", "; told = (after z r.0 e).1 }"),
    "model/unseen-of-others": ("specs/Kept.antt", "AllFit z fs → A c ≡ true → Alike", "AllFit z fs → A c ≡ A c → Alike"),
    "model/unshown-in-front": ("specs/Desk.antt", "    (w.there && w.shown) && ((int_le", "    (w.there && w.there) && ((int_le"),
}

for name, (file, old, new) in EDITS.items():
    crate, label = name.split("/")
    text = (Path("crates") / crate / file).read_text()
    if text.count(old) != 1:
        raise SystemExit(f"{name}: its text stands {text.count(old)} times")
    (Path("crates") / crate / "must-fail" / f"{label}.edit").write_text(f"file: {file}\nold: {old}\nnew: {new}\n")
