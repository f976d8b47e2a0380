"""The stamps by which `rt` takes the libraries that `rt ci` proved, so that it doesn't prove them a second time.

`rt lib` and `rt run` take a library that is built if the file `stamp` beside it has the digest of all that it was built
from. `rt lib` writes that file. `rt ci` writes none, and no command of the kit takes over what it built. Without stamps
the gate would prove the libraries below dma_ffi again, only to make the archive for its tests: 35 minutes of a
processor.

The stamps rely on this:

- The kit's module rtlib has `crates_below`, and of a crate `is_program`, `is_static`, `folder`, `rlib` and `stamp`;
  `rt` looks for the stamp in out/rlib. The kit promises none of it. If a name is missing, no stamp is written.
- `rt ci` has ended with status 0, so that it has proved each library, from the files in this clone. .ci/run looks.
- The sources are what they were before `rt ci`, by their digest. This can't show that a file was changed while `rt ci`
  read it, and changed back before it ended.

If one of these were wrong, `rt` could take a library for proved that isn't, or that is proved from other sources. Then
the programs and the archive that ./prove builds over it could have code that no proof covers. The verdict of `rt ci`
would still be right: it moves aside what earlier runs built, and reads no stamp.
"""
import contextlib
import os

from proving.crates import TOP, digest_of_all, kit_module


def stamp_those_of_ci(digest):
    """Writes the stamps of the libraries that `rt ci` just built. `digest` is that of the sources before `rt ci`.

    A library fits only the libraries that it was built over, so either all get a stamp or none: none if a source has
    changed, a library is missing, or one has a stamp, as it has if an earlier `rt lib` built it."""
    with contextlib.suppress(ImportError, AttributeError, OSError, SystemExit):
        found = [it for it in kit_module().crates_below(TOP) if not it.is_program and not it.is_static]
        stamps = {os.path.join(it.folder, "out/rlib/stamp"): it.stamp() for it in found}
        are_built = all(os.path.isdir(it.rlib) for it in found)
        if digest != digest_of_all() or not are_built or any(map(os.path.exists, stamps)):
            return
        for path, stamp in stamps.items():
            with open(path, "w", encoding="ascii") as file:
                file.write(stamp)
