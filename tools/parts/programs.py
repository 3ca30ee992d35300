"""Running the tracer and the oracle over an input, and the oracle in conversation with a chip."""
import collections, os, resource, signal

Talk = collections.namedtuple('Talk', 'head asked replies listing')  # asked: (is a write, register)


class Runner:
    """Each process has its own. A conversation has at most `most` replies; a program that loops, or prints more than 100 bytes for
    each of them, is stopped."""

    def __init__(self, most=10000):
        self.most = most
        self.input, self.output = os.memfd_create('input'), os.memfd_create('output')
        self.nothing = os.open(os.devnull, os.O_WRONLY)

    def give(self, text):
        """Makes this the input of `run_again`."""
        os.ftruncate(self.input, 0)
        os.pwrite(self.input, text, 0)

    def start(self, program, arguments, *files):
        os.ftruncate(self.output, 0)
        os.lseek(self.output, 0, os.SEEK_SET)
        pid = os.posix_spawn(program, [program, *arguments], os.environ, file_actions=[
            (os.POSIX_SPAWN_DUP2, file, number) for number, file in files], setsigdef=[signal.SIGPIPE, signal.SIGXFSZ])
        resource.prlimit(pid, resource.RLIMIT_CPU, (5, 6))
        resource.prlimit(pid, resource.RLIMIT_FSIZE, (self.most * 100, self.most * 100))
        return pid

    def listing(self):
        return os.pread(self.output, os.fstat(self.output).st_size, 0)

    def run_again(self, program, *arguments):
        """Its exit status, below 0 for a signal."""
        os.lseek(self.input, 0, os.SEEK_SET)
        pid = self.start(program, arguments, (0, self.input), (1, self.output), (2, self.nothing))
        return os.waitstatus_to_exitcode(os.waitpid(pid, 0)[1])

    def run(self, program, text, *arguments):
        """The listing and the exit status."""
        self.give(text)
        status = self.run_again(program, *arguments)
        return self.listing(), status

    def drive(self, oracle, head, chip, known=()):
        """One conversation of the oracle with the chip. The replies in
        `known`, which the chip is going to give, are sent at once."""
        (take, give), (hear, say) = os.pipe(), os.pipe()
        pid = self.start(oracle, ['ask'], (0, take), (1, self.output), (2, say))
        os.close(say)
        asked, replies, rest = [], [], b''
        with open(hear, 'rb', 0) as hear, open(give, 'wb', 0) as give:
            known = known[:5000]  # no more than a pipe holds
            give.write(head + b''.join(reply + b'\n' for reply in known))
            while data := hear.read(1 << 16):
                *lines, rest = (rest + data).split(b'\n')
                for what, *words in (line.split() for line in lines if line[:1] != b'd'):
                    if len(replies) == self.most:
                        give.close()
                        break
                    asked.append((what == b'w', int(words[0], 16)))
                    replies.append(chip.answer(*asked[-1], int(words[-1], 16)))
                    if len(replies) > len(known):
                        give.write(replies[-1] + b'\n')
        os.close(take)
        status = os.waitstatus_to_exitcode(os.waitpid(pid, 0)[1])
        if status or replies[:len(known)] != list(known):
            raise RuntimeError(f'the oracle broke off, or the chip is not steady: {status} {head}')
        return Talk(head, asked, replies, self.listing())
