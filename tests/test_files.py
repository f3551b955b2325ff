"""Files that are not there, devices, and what is written over and what is not."""
import os
import resource
import signal
import subprocess
import unittest

from common import EXAMPLES, IMAGE_BYTES, PROGRAM, Case, agcws, read, write


def with_short_files(words, most):
    """What the program answers where the system lets no file grow above some bytes."""
    def limit():
        signal.signal(signal.SIGXFSZ, signal.SIG_IGN)
        resource.setrlimit(resource.RLIMIT_FSIZE, (most, most))

    ran = subprocess.run([PROGRAM, *words], stdin=subprocess.DEVNULL, capture_output=True, timeout=300, preexec_fn=limit)
    return ran.returncode, ran.stdout, ran.stderr


class Files(Case):
    """Devices, targets, and images that are whole or not there."""

    def test_devices(self):
        """Files that are not there, that cannot be made, and a writer that fails."""
        source, empty = f"{EXAMPLES}/five_plus_five.agc", f"{EXAMPLES}/empty.feed"
        with self.subTest("a source that is not there"):
            self.assertAnswer(agcws("run", f"{self.room}/none", empty, "4"), 3, b"", b"agcws: E6\n")
        write(f"{self.room}/wrong.agc", b" FROB 1\n")
        with self.subTest("a wrong source, and a feed that is not there"):
            self.assertAnswer(agcws("run", f"{self.room}/wrong.agc", f"{self.room}/none", "4"), 3, b"", b"agcws: E6\n")
        with self.subTest("a feed that is not there"):
            self.assertAnswer(agcws("run", source, f"{self.room}/none", "4"), 3, b"", b"agcws: E6\n")
        with self.subTest("a source that is a folder"):
            self.assertAnswer(agcws("asm", self.room, f"{self.room}/x"), 3, b"", b"agcws: E6\n")
        with self.subTest("an image that cannot be made"):
            self.assertAnswer(agcws("asm", source, f"{self.room}/none/x"), 3, b"", b"agcws: E7\n")
        with open("/dev/full", "wb") as full:
            ran = subprocess.run([PROGRAM, "asm", source, f"{self.room}/kept"], stdin=subprocess.DEVNULL, stdout=full, stderr=subprocess.PIPE, timeout=300)
        with self.subTest("a listing that cannot be written"):
            self.assertEqual((ran.returncode, ran.stderr), (3, b"agcws: E7\n"))
        with self.subTest("its image is whole"):
            self.assertEqual(os.path.getsize(f"{self.room}/kept"), IMAGE_BYTES)
        status, _, _ = agcws("asm", source, f"{self.room}/image")
        with self.subTest("an image's size"):
            self.assertTrue(status == 0 and os.path.getsize(f"{self.room}/image") == IMAGE_BYTES)

    def test_targets(self):
        """A file that is read, or has the name of a source or a feed, is not written over: that is told before anything is opened."""
        for command, (read_name, written) in {"asm": ("SRC", "ROPE"), "asm --sums": ("SRC", "ROPE"), "upgrade": ("OLD", "NEW")}.items():
            words, kind = command.split(), command.replace(" --", "_")
            folder = f"{self.room}/{kind}.folder"
            os.mkdir(folder)
            path = f"{folder}/kept"
            error = f"error: {read_name} and {written} are the same path\n".encode()
            with self.subTest(f"agcws {command} with one path that is not there"):
                self.assertAnswer(agcws(*words, path, path), 2, b"", error)
            with self.subTest(f"agcws {command} makes no file of that path"):
                self.assertEqual(os.listdir(folder), [])
            write(path, b" FROB 1\n")
            with self.subTest(f"agcws {command} with one path"):
                self.assertAnswer(agcws(*words, path, path), 2, b"", error)
            os.symlink("kept", f"{folder}/symbolic")
            os.link(path, f"{folder}/hard")
            os.symlink(folder, f"{self.room}/{kind}.linked")
            error = f"error: {read_name} and {written} are the same file\n".encode()
            others = [f"{folder}/./kept", f"{folder}//kept", f"{folder}/../{kind}.folder/kept", f"{folder}/symbolic", f"{folder}/hard", f"{self.room}/{kind}.linked/kept"]
            for one, other in [(path, it) for it in others] + [(it, path) for it in others]:
                with self.subTest(f"agcws {command} {os.path.relpath(one, self.room)} {os.path.relpath(other, self.room)}"):
                    self.assertAnswer(agcws(*words, one, other), 2, b"", error)
            error = f"error: {written} has the name of a source or a feed: no image is written to a file whose name ends in .agc or .feed\n".encode()
            for name in ("b.agc", "b.feed", ".agc"):
                for there in (False, True):
                    if there:
                        write(f"{folder}/{name}", b"kept")
                    for source in (path, f"{folder}/none"):
                        with self.subTest(f"agcws {command} to {name}"):
                            self.assertAnswer(agcws(*words, source, f"{folder}/{name}"), 2, b"", error)
                with self.subTest(f"agcws {command} keeps {name}"):
                    self.assertEqual(read(f"{folder}/{name}"), b"kept")
            with self.subTest(f"agcws {command} keeps the file"):
                self.assertEqual(read(path), b" FROB 1\n")
            with self.subTest(f"agcws {command} makes no other"):
                self.assertEqual(sorted(os.listdir(folder)), [".agc", "b.agc", "b.feed", "hard", "kept", "symbolic"])
        names = f"{self.room}/agc"
        status, _, _ = agcws("asm", f"{EXAMPLES}/five_plus_five.agc", names)
        with self.subTest("a name that is no ending"):
            self.assertTrue(status == 0 and os.path.getsize(names) == IMAGE_BYTES)

    def test_whole_images(self):
        """An image stands in its place only once it is whole: a write that fails leaves what stood there, and nothing beside it."""
        source, folder = f"{EXAMPLES}/five_plus_five.agc", f"{self.room}/images"
        os.mkdir(folder)
        one, two, rope = f"{self.room}/first.rope", f"{self.room}/second.rope", f"{folder}/my.rope"
        agcws("asm", "--rope", "1", source, one)
        agcws("asm", source, two)
        calls = {"asm": ["asm", source, rope], "upgrade": ["upgrade", one, rope]}
        for name, words in calls.items():
            for most in (0, 1, 40960, IMAGE_BYTES - 1):
                with self.subTest(f"{name} of {most} bytes"):
                    self.assertAnswer(with_short_files(words, most), 3, b"", b"agcws: E7\n")
                with self.subTest(f"{name} of {most} bytes makes no file"):
                    self.assertEqual(os.listdir(folder), [])
                write(rope, b"old")
                with self.subTest(f"{name} of {most} bytes over an old file"):
                    self.assertAnswer(with_short_files(words, most), 3, b"", b"agcws: E7\n")
                with self.subTest(f"{name} of {most} bytes keeps the old file"):
                    self.assertTrue(read(rope) == b"old" and os.listdir(folder) == ["my.rope"])
                os.remove(rope)
            write(f"{rope}.part0", b"mine")
            write(rope, b"old")
            with self.subTest(f"{name} of 40960 bytes beside a file that has a draft's name"):
                self.assertAnswer(with_short_files(words, 40960), 3, b"", b"agcws: E7\n")
            with self.subTest(f"{name} beside it keeps the old file"):
                self.assertTrue(read(rope) == b"old" and sorted(os.listdir(folder)) == ["my.rope", "my.rope.part0"])
            os.chmod(rope, 0o640)
            status, _, err = agcws(*words)
            with self.subTest(f"{name} puts the image in place of an old file"):
                self.assertTrue((status, err) == (0, b"") and read(rope) == read(two))
            with self.subTest(f"{name} keeps the permissions"):
                self.assertEqual(os.stat(rope).st_mode & 0o777, 0o640)
            with self.subTest(f"{name} keeps a file that has a draft's name"):
                self.assertTrue(read(f"{rope}.part0") == b"mine" and sorted(os.listdir(folder)) == ["my.rope", "my.rope.part0"])
            os.remove(f"{rope}.part0")
            self.try_linked_images(name, words, folder, rope, read(two))
            os.remove(rope)
        with self.subTest("an image to a device"):
            self.assertAnswer(agcws("asm", source, "/dev/null"), *agcws("asm", source, rope))
        with self.subTest("the device stands"):
            self.assertTrue(not os.path.isfile("/dev/null") and os.listdir(folder) == ["my.rope"])
        long = f"{folder}/{'x' * 255}"
        status, _, err = agcws("asm", source, long)
        with self.subTest("an image of the longest name"):
            self.assertTrue((status, err) == (0, b"") and read(long) == read(two) and sorted(os.listdir(folder)) == ["my.rope", "x" * 255])
        ran = subprocess.run([PROGRAM, "asm", source, "/dev/stdout"], stdin=subprocess.DEVNULL, capture_output=True, timeout=300)
        with self.subTest("an image into a pipe"):
            self.assertTrue((ran.returncode, ran.stderr) == (0, b"") and ran.stdout.startswith(read(two)))

    def try_linked_images(self, name, words, folder, rope, image):
        """A link to an image stays one, and a file of two names stays one file."""
        os.rename(rope, f"{folder}/behind")
        os.symlink("behind", rope)
        write(f"{folder}/behind", b"old")
        status, _, err = agcws(*words)
        with self.subTest(f"{name} through a link"):
            self.assertTrue((status, err, os.path.islink(rope)) == (0, b"", True) and read(f"{folder}/behind") == image)
        os.remove(f"{folder}/behind")
        status, _, err = agcws(*words)
        with self.subTest(f"{name} through a link to nothing"):
            self.assertTrue((status, err, os.path.islink(rope)) == (0, b"", True) and read(f"{folder}/behind") == image)
        os.remove(rope)
        write(f"{folder}/behind", b"old")
        os.link(f"{folder}/behind", rope)
        status, _, err = agcws(*words)
        with self.subTest(f"{name} to a file of two names"):
            self.assertTrue((status, err) == (0, b"") and read(f"{folder}/behind") == read(rope) == image and os.path.samefile(rope, f"{folder}/behind"))
        os.remove(f"{folder}/behind")
        with self.subTest(f"{name} leaves nothing beside the image"):
            self.assertEqual(os.listdir(folder), ["my.rope"])


if __name__ == "__main__":
    unittest.main()
