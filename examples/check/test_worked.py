"""The cases of worked.txt: inputs with their outputs, which two programs apart from this one worked out of the rules.

A case is a line `== WORDS: what it shows`, the input, a line `--`, and the output."""
import os, unittest

from twin import answer

CASES = os.path.join(os.path.dirname(os.path.abspath(__file__)), 'worked.txt')


class Worked(unittest.TestCase):
    def test_every_case(self):
        with open(CASES, encoding='ascii') as file: cases = file.read().split('== ')[1:]
        self.assertGreater(len(cases), 10)
        for case in cases:
            head, text = case.split('\n', 1)
            given, right = text.split('--\n')
            with self.subTest(head):
                self.assertEqual(list(answer(head.split(':')[0].split(), given.encode())), right.splitlines())


if __name__ == '__main__': unittest.main()
