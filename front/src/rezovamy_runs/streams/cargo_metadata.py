"""What `cargo metadata` says of packages and their targets."""

from __future__ import annotations

import dataclasses

from rezovamy_runs.json_values import Members


@dataclasses.dataclass(frozen=True)
class PackageTarget:
    """A target of a package, with the path of its source."""

    name: str
    kind: str
    source: str


@dataclasses.dataclass(frozen=True)
class Package:
    """A package of a workspace."""

    name: str
    manifest_path: str
    targets: tuple[PackageTarget, ...]


def packages_of(metadata: Members) -> list[Package]:
    """Return the packages that metadata have; ValueError or LookupError where these are none."""
    return list(map(package_of, metadata.inner_list("packages")))


def package_of(package: Members) -> Package:
    """Return a package as cargo's JSON describes it."""
    return Package(
        package.text("name"),
        package.optional_text("manifest_path") or "",
        tuple(map(target_of_package, package.inner_list("targets"))),
    )


def target_of_package(target: Members) -> PackageTarget:
    """Return a target as cargo's JSON describes it."""
    return PackageTarget(
        target.text("name"), target.texts("kind")[0], target.optional_text("src_path") or ""
    )


def named(packages: list[Package], name: str | None) -> list[Package]:
    """Return the packages, or the one of a name; LookupError where none has it."""
    found = [package for package in packages if name in (None, package.name)]
    if not found:
        raise LookupError(f"no package is called {name}")
    return found
