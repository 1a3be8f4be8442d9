"""Compares values for the cases of tests/web, and prints and counts what differs."""
import traceback


class Checks:
    def __init__(self):
        self.failed = 0
        self.case = ''

    def differs(self, *lines):
        self.failed += 1
        print(f'{self.case}: ' + '\n  '.join(str(line) for line in lines), flush=True)

    def same(self, what, wanted, found):
        if wanted != found:
            self.differs(f'{what} differs. Wanted:', repr(wanted), 'found:', repr(found))

    def true(self, what, condition, *details):
        if not condition:
            self.differs(f'not so: {what}', *details)

    def run(self, name, case, *arguments):
        """Runs a case, and reports an exception as a difference."""
        self.case = name
        try:
            case(*arguments)
        except Exception as error:  # a case that breaks must not stop the others
            steps = [f'{step.filename.rsplit("/", 1)[-1]}:{step.lineno}'
                     for step in traceback.extract_tb(error.__traceback__)]
            where = ' > '.join(step for step in steps if not step.startswith(('checks.py', 'driver.py')))
            self.differs(f'{where}: {type(error).__name__} {error}')
