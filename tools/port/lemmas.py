#!/usr/bin/env python3
"""lemmas.py: moves the lemma files below a Proof, proofs/F/Proof/X.antt, to proofs/X.antt, which proofs/Lib.antt declares.
Run at the repository's root, before answers.py."""
import glob
import os
import re

for path in sorted(glob.glob("crates/*/proofs/**/Proof/*.antt", recursive=True)):
    crate, rest = re.match(r"crates/(\w+)/proofs/(.*)$", path).groups()
    name = os.path.basename(path)[:-5]
    new = f"crates/{crate}/proofs/{name}.antt"
    assert not os.path.exists(new), new
    os.rename(path, new)
    old_module = f"Rattle.{crate}.proofs." + rest[:-5].replace("/", ".")
    new_module = f"Rattle.{crate}.proofs.{name}"
    for other in glob.glob(f"crates/{crate}/**/*.antt", recursive=True):
        text = open(other).read()
        turned = re.sub(re.escape(old_module) + r"(?![\w.])|" + re.escape(old_module) + r"(?=\.\{)", new_module, text)
        if other.endswith("/Proof.antt"):
            turned = re.sub(rf"(?m)^(pub )?mod {name}\n", "", turned) if f"/{rest.split('/Proof/')[0]}/Proof.antt" in other else turned
        if turned != text:
            open(other, "w").write(turned)
    lib = f"crates/{crate}/proofs/Lib.antt"
    text = open(lib).read() if os.path.exists(lib) else "-- The laws that the proofs of this crate cite.\n"
    open(lib, "w").write(text.rstrip("\n") + f"\npub mod {name}\n")
    try:
        os.rmdir(os.path.dirname(path))
    except OSError:
        pass
