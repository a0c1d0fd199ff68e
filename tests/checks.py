"""Checks of a suite, one line each: ok or FAILED. The last line is 'N passed, M failed', as .ci/count.sh wants it."""
import sys

passed = failed = 0


def check(what, good, shown=''):
    global passed, failed
    if good:
        passed += 1
        print(f'ok {what}')
    else:
        failed += 1
        print(f'FAILED {what}')
        if shown:
            print('    ' + str(shown).strip('\n').replace('\n', '\n    '))


def verdict():
    print(f'{passed} passed, {failed} failed')
    sys.exit(1 if failed or passed == 0 else 0)
