"""A user of the package with annotations of each kind, for a checker of types: it is never run."""
from pep440_rattle import Specifier, SpecifierSet, Version, filter_texts, sort_keys, sort_texts
from pep440_rattle.ranges import VersionRange
from pep440_rattle.swap import swap


class Mine(Version):
    @property
    def release(self) -> tuple[int, ...]:
        return super().release[:2]


def newest(several: SpecifierSet, files: dict[Version, str]) -> str | None:
    versions: list[Version] = [*several.filter(files, prereleases=None)]
    return files[max(versions)] if versions else None


texts: list[str] = sort_texts(filter_texts(Specifier(">=1.0"), ["1.0", "2.0"], skip_invalid=True))
keys: list[bytes] = sort_keys([*texts, Mine("1.0")])
is_less: bool = Mine("1.0") < Version("2.0")
lower = SpecifierSet(">=1.0").ranges()[0][0]
text: str = lower.version.public if lower else ""
made: Version = Mine.from_parts(release=(1, 2)).__replace__(dev=1)
pairs: list[tuple[str, int]] = [*SpecifierSet(">=1").filter([("1", 2)], key=lambda pair: pair[0])]
is_within: bool = SpecifierSet(">=1").is_subset(SpecifierSet(">=0"))
both: SpecifierSet | None = (SpecifierSet(">=1").to_range() - VersionRange.singleton("1.5")).to_specifier_set()
swap()
