"""What calls return, compared, with what they were given in the message."""


def raised(call, *words, **more):
    """What a call returns, or the error that it raises."""
    try:
        return call(*words, **more)
    except Exception as error:
        return error


def same(found, wanted, *of):
    if found != wanted:
        raise AssertionError(f"{str(found)[:300]!r} and not {str(wanted)[:300]!r}: {str(of)[:300]}")


def is_error(found, kind, *of):
    if not isinstance(found, kind):
        raise AssertionError(f"{str(found)[:300]!r} and no {kind}: {str(of)[:300]}")
