"""The runtime: a `main` or a test that takes it makes it in its first line."""


def runtime(source, at):
    """`rt: HostRuntime`, alone between the brackets of the function at a place."""
    opening = source.next(source.next(at))
    if source.text(opening) != "(":
        return
    end = source.close(opening)
    words = source.words(opening + 1, end)
    if words[1:] not in ([":", "HostRuntime"], [":", "HostRuntime", ","]):
        return
    source.leave_out_within_line(opening + 1, end - 1, "runtime")
    body = source.until(end, "{")
    source.out[body] = "{\n" + source.indent(at) + f"    let {words[0]} = crate::support::rattle_std::rt::host();"
