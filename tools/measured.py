"""The texts that tools/speed measures with: descriptions and scripts."""
import pathlib

here = pathlib.Path(__file__).resolve().parent

MOST_BYTES = 262_144

# The descriptions that have faults.
FAULTY = {"endless.tvd", "shared.tvd"}

# Sixteen events on tools/form.tvd, an order form.
KEYS = (
    'key Tab\ntype "ab"\nkey Tab\ntype " "\nkey Tab\ntype " "\nkey Shift-Tab\ntype " "\nkey Tab\nkey Tab\n'
    'type "c"\nkey Backspace\nkey Tab\nkey Down\nkey Shift-Tab\n'
)

# The first fourteen of them.
FOURTEEN = KEYS.removesuffix("key Down\nkey Shift-Tab\n")

# The dearest picture known to check: counts in counts, which have tables.
NESTED = "[*2{*119{*@1}}]" * 8

# The dearest one known to fill.
FILLING = "[*2{*119{*--}}]" * 7 + "*118-z"


def form():
    return (here / "form.tvd").read_text(encoding="utf-8")


def dear_inputs():
    """A sound description of inputs with a dear picture, of which the last refuses the end."""
    lines = ["tvd 1", "screen 132 60", "start d", 'dialog d 0 1 132 58 "d" ends ok cancel']
    for i in range(61):
        lines.append(f'input i{i} {1 + 20 * (i % 6)} {1 + 2 * (i // 6)} 10 120 picture "{"*@" * 60}" "{"a" * 60}"')
    lines.append('input last 1 40 10 2 picture "##" "1"')
    lines += ['button ok 1 50 10 "ok" ok default', 'button no 21 50 10 "no" cancel', "end", ""]
    return "\n".join(lines)


def filled(picture):
    """An input that writes what has to follow by its picture."""
    return "\n".join(
        ["tvd 1", "screen 132 60", "start d", 'dialog d 0 1 132 58 "d" ends cancel']
        + [f'input i 1 1 100 120 picture "{picture}" "" fill', 'button no 1 3 10 "no" cancel', "end", ""]
    )


def large():
    """The largest lawful description."""
    text = ["tvd 1\nscreen 132 60\nstart d100\n"]
    for m in range(8):
        items = "".join(f'item "~{i}~ item" {100 + i}\n' for i in range(10))
        text.append(f'menu "~{m}~ menu"\n{items}item "item" quit\nend\n')
    text += [f'status "go" F{1 + i} {100 + i}\n' for i in range(8)]
    for n in range(1, 10):
        text.append(f'window w{n} 0 0 132 60 {n} "a window"\n' + 'text 1 1 9 1 "a text"\n' * 64 + "end\n")
    for c in range(100, 116):
        text.append(f'dialog d{c} 0 1 132 58 "a dialog" opens {c} ends ok cancel\n')
        text += [f"checks c{i} {1 + 10 * i} 1 9" + ' "a"' * 16 + "\n" for i in range(6)]
        text += [f"list l{i} {1 + 5 * i} 18 5 3" + ' "a"' * 100 + " start 1\n" for i in range(25)]
        text += [f'input t{i} {1 + 10 * i} 24 10 20 picture "*5{{#,[ab]c}}" "1abc" validate\n' for i in range(13)]
        text += [f'button b{i} {1 + 10 * i} 26 10 "~{i}~ go" {120 + i}\n' for i in range(10)]
        text += [f'text 1 {30 + r} 120 1 "{"x" * 110}"\n' for r in range(10)]
        text += [f"show l{r % 25} when c{r % 6} {1 + r % 16}\n" for r in range(64)] + ["end\n"]
    return "".join(text)


def inputs_with(picture, character):
    """900 inputs with a picture, each with a start of its greatest length."""
    lines = ["tvd 1", "screen 132 60", "start d100"]
    for d in range(15):
        lines.append(f'dialog d{100 + d} 0 1 132 58 "d" opens {100 + d} ends cancel')
        for i in range(60):
            lines.append(f'input i{i} {1 + 20 * (i % 6)} {1 + 2 * (i // 6)} 10 120 picture "{picture}" "{character * 120}"')
        lines += ['button no 1 50 10 "no" cancel', "end"]
    return "\n".join(lines + [""])


def endless_picture():
    """A picture as long as the description may be, and a start that it may have to judge."""
    head = 'tvd 1\nscreen 132 60\nstart d\ndialog d 0 1 132 58 "d" ends cancel\ninput i 1 1 100 120 picture "'
    last = f'" "{"a" * 120}"\nbutton no 1 3 10 "no" cancel\nend\n'
    part = "*{*{*{*{*{*{*{*{*@}}}}}}}}"
    return head + part * ((MOST_BYTES - len(head) - len(last)) // len(part)) + last


def shared_letters():
    """2,500 buttons of one letter in sixteen panes. The rules that show them come last, in the other order, behind 8,000 others."""
    buttons = [f'button b{i} 1 1 4 "~A~" ok\n' for i in range(2500)]
    rules = ["show z when r 1\n"] * 8000 + [f"show b{i} when r {i}\n" for i in reversed(range(2500))]
    head = 'tvd 2\nscreen 132 60\nstart d\ndialog d 0 1 132 58 "d" ends ok cancel\nradios r 1 1 9 "a" start 1\nchecks z 1 3 9 "a"\n'
    panes = "".join(f"pane p{i} 1 1 9 9\n" for i in range(16))
    return head + panes + "".join(buttons) + "end\n" * 16 + "".join(rules) + "end\n"


def write(room):
    """Writes all of them into a folder."""
    texts = {
        "form.tvd": form(),
        "dear.tvd": dear_inputs(),
        "fill.tvd": filled("#" + "-" * 118),
        "costly.tvd": filled(FILLING),
        "large.tvd": large(),
        "stars.tvd": inputs_with("*@" * 60, "a"),
        "nested.tvd": inputs_with(NESTED, "1"),
        "endless.tvd": endless_picture(),
        "shared.tvd": shared_letters(),
        "empty.tvs": "",
        "enter1.tvs": "key Enter\n" * 10,
        "enter2.tvs": "key Enter\n" * 20,
        "fill.tvs": 'type "1"\n',
        "costly.tvs": 'type "-"\n',
        "tab.tvs": "key Tab\n",
        "keys1.tvs": KEYS * 100,
        "keys2.tvs": KEYS * 200,
        "keys.tvs": KEYS * 6000,
        "typed1.tvs": 'type "a"\nkey Backspace\n' * 500,
        "typed2.tvs": 'type "a"\nkey Backspace\n' * 1000,
        "idle1.tvs": "key Up\n" * 1000,
        "idle2.tvs": "key Up\n" * 2000,
        "shots1.tvs": "key Tab\n" + "shot\n" * 100,
        "shots2.tvs": "key Tab\n" + "shot\n" * 300,
    }
    for name, text in texts.items():
        (room / name).write_text(text, encoding="utf-8")
