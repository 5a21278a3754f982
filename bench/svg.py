"""The parts of an SVG drawing that bench/ makes."""
import html

FONT = "DejaVu Sans, Verdana, Arial, sans-serif"


def element(name, text=None, **attributes):
    """An element with these attributes, and with this text, if there is one."""
    words = "".join(f' {key.replace("_", "-")}="{html.escape(str(value))}"' for key, value in attributes.items())
    return f"  <{name}{words} />" if text is None else f"  <{name}{words}>{html.escape(text)}</{name}>"


def document(width, height, title, said, drawn):
    """A drawing of this size, with its title, a line below that, and the elements drawn."""
    head = (
        f'<svg xmlns="http://www.w3.org/2000/svg" role="img" font-family="{FONT}" '
        f'font-size="12" fill="#222222" width="{width}" height="{height}" viewBox="0 0 {width} {height}">'
    )
    return "\n".join([
        head,
        element("title", title),
        element("rect", width="100%", height="100%", fill="#ffffff"),
        element("text", title, x=24, y=26, font_size=16, font_weight="bold"),
        element("text", said, x=24, y=46, fill="#666666"),
        *drawn,
        "</svg>",
        "",
    ])
