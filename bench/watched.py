"""Runs a command over an input, and tells what it took. A process of its own for each command, since what is told of a
command's memory is never less than that of the process that started it.

    watched.py whole INPUT COMMAND..        `NANOSECONDS KILOBYTES USER SYSTEM FAULTS`: how long it ran, how much memory
                                            it had at most, the microseconds of processors that it and the system took
                                            for it, and its page faults
    watched.py executing INPUT COMMAND..    `NANOSECONDS`: how long it took from the last bytes of its input to its end

What the command writes is thrown away. The input is a file as a whole is timed, and a pipe as executing is."""
import array
import fcntl
import os
import select
import signal
import sys
import termios
import time

# So much of the input is held back until the command has read all before it, and waits.
LAST = 4096


THROWN_AWAY = (os.POSIX_SPAWN_OPEN, 1, os.devnull, os.O_WRONLY, 0)


def whole(path: str, words: list[str]) -> tuple[int, str]:
    files = [(os.POSIX_SPAWN_OPEN, 0, path, os.O_RDONLY, 0), THROWN_AWAY]
    begun = time.perf_counter_ns()
    process = os.posix_spawn(words[0], words, os.environ, file_actions=files)
    _, status, use = os.wait4(process, 0)
    spent = time.perf_counter_ns() - begun
    user, system = (round(seconds * 1e6) for seconds in (use.ru_utime, use.ru_stime))
    return status, f"{spent} {use.ru_maxrss} {user} {system} {use.ru_minflt + use.ru_majflt}"


def executing(path: str, words: list[str]) -> tuple[int, str]:
    its_input, given = os.pipe()
    files = [(os.POSIX_SPAWN_DUP2, its_input, 0), THROWN_AWAY]
    process = os.posix_spawn(words[0], words, os.environ, file_actions=files)
    os.close(its_input)
    try:
        last = give_all_but_the_last(path, given)
        begun = time.perf_counter_ns()
        os.write(given, last)
    except BrokenPipeError:
        os.kill(process, signal.SIGKILL)
        os.waitpid(process, 0)
        sys.exit("it does not read all of its input")
    os.close(given)
    _, status = os.waitpid(process, 0)
    return status, f"{time.perf_counter_ns() - begun}"


def give_all_but_the_last(path: str, given: int) -> bytes:
    """Writes the file into the pipe, and gives its last bytes once the reader waits for them."""
    with open(path, "rb") as text:
        size = os.fstat(text.fileno()).st_size
        end, at = max(0, size - LAST), 0
        while at < end:
            at += os.sendfile(given, text.fileno(), at, end - at)
        left = array.array("i", [1])
        while left[0]:
            fcntl.ioctl(given, termios.FIONREAD, left)
            if left[0] and not has_reader(given):
                raise BrokenPipeError
            time.sleep(0.01)
        return os.pread(text.fileno(), LAST, end)


def has_reader(given: int) -> bool:
    told = select.poll()
    told.register(given, select.POLLOUT)
    return not any(event & select.POLLERR for _, event in told.poll(0))


def main() -> None:
    status, told = {"whole": whole, "executing": executing}[sys.argv[1]](sys.argv[2], sys.argv[3:])
    print(told)
    sys.exit(os.waitstatus_to_exitcode(status))


main()
