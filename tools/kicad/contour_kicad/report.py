"""The table that a command ends with."""


def table(outcome):
    """The lines on what routing brought."""
    before, after = outcome.before, outcome.after
    rows = [("", "before", "after"),
            ("unconnected", before.unconnected, after.unconnected)]
    kinds = before.kinds(), after.kinds()
    for kind in sorted(set(kinds[0]) | set(kinds[1])):
        new = outcome.new.get(kind, 0)
        rows.append((kind, kinds[0][kind], f"{kinds[1][kind]} ({new} new)" if new else kinds[1][kind]))
    rows += [("tracks", before.tracks, after.tracks), ("vias", before.vias, after.vias),
             ("length (mm)", f"{before.length / 1e6:.1f}", f"{after.length / 1e6:.1f}"),
             ("seconds", "", f"{outcome.seconds:.1f}")]
    width = max(len(row[0]) for row in rows)
    yield from (f"{name:<{width}}  {left!s:>10}  {right!s:>10}".rstrip() for name, left, right in rows)
    for one in outcome.missing:
        near = f"; near it: {', '.join(one.round_it)}" if one.round_it else ""
        yield f"not connected: {one.pad} of {one.net}: {one.why}{near}"
