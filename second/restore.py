"""A new journal in the old form.

python3 -m second.restore < JOURNAL
"""

from second import forms


def printed(data):
    return forms.printed(forms.restored, data)


def main():
    forms.run(forms.restored)


if __name__ == '__main__':
    main()
