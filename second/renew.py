"""An old journal in the new form.

python3 -m second.renew < JOURNAL
"""

from second import forms


def printed(data):
    return forms.printed(forms.renewed, data)


def main():
    forms.run(forms.renewed)


if __name__ == '__main__':
    main()
