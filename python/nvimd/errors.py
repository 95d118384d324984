"""What this package raises; each says in one line what is wrong."""


class Error(Exception):
    """Whatever this package raises."""


class Ended(Error):
    """There is no server, or it has ended."""


class Unfit(Error):
    """An event that doesn't fit those that came before it."""


class BadBook(Error):
    """A file that isn't there, is no book, or is cut."""


class Fault(Error):
    """A call that was refused. `kind` is 0 for an exception and 1 for a validation error."""

    begins = ()  # the messages of this fault begin with one of these

    def __init__(self, kind, message):
        super().__init__(message)
        self.kind, self.message = kind, message

    @staticmethod
    def of(error):
        """The fault of an error as a reply has it, by its name where it has one."""
        if not (isinstance(error, list) and len(error) == 2):
            return Fault(0, str(error))
        kind, message = error
        if isinstance(message, bytes):
            message = message.decode(errors="surrogateescape")
        named = (name for name in Fault.__subclasses__() if str(message).startswith(name.begins))
        return next(named, Fault)(kind, str(message))


class InvalidMethod(Fault):
    begins = ("Invalid method: ",)


class WrongNumberOfArguments(Fault):
    begins = ("Wrong number of arguments",)


class WrongType(Fault):
    begins = ("Wrong type for argument",)


class InvalidBuffer(Fault):
    begins = ("Invalid buffer id: ",)


class InvalidWindow(Fault):
    begins = ("Invalid window id: ",)


class InvalidTabpage(Fault):
    begins = ("Invalid tabpage id: ",)


class InvalidKey(Fault):
    begins = ("Invalid key: ",)


class InvalidValue(Fault):
    begins = ("Invalid value for key: ",)


class OutOfBounds(Fault):
    begins = ("Index out of bounds",)


class StartAfterEnd(Fault):
    begins = ("'start' is higher than 'end'",)


class HasNewline(Fault):
    begins = ("String cannot contain newlines",)


class NoIdLeft(Fault):
    begins = ("No id left",)


class NotModifiable(Fault):
    begins = ("Buffer is not 'modifiable'",)


class NotEnoughRoom(Fault):
    begins = ("Not enough room",)


class LastOne(Fault):
    begins = ("Cannot close the last one",)


class NameInUse(Fault):
    begins = ("Name already in use",)


class UnsavedChanges(Fault):
    begins = ("Unsaved changes",)


class UnknownName(Fault):
    begins = ("Unknown name: ",)


class LimitReached(Fault):
    begins = ("Limit reached",)


class UiAttached(Fault):
    begins = ("UI already attached",)


class UiNotAttached(Fault):
    begins = ("UI not attached",)


__all__ = [name for name, value in globals().items() if isinstance(value, type)]


def words_of(error):
    """What an error of the system says, in a few words."""
    return getattr(error, "strerror", None) or str(error)
