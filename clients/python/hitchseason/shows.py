"""How answers show themselves in a notebook, and their rows for other programs.

    table_html(HEAD, ROWS)      a table; each cell is text
    Shown                       what has `as_rows`, shows itself by `_repr_html_`, and gives `as_frame` where pandas is there
    Drawn                       what has an `svg` besides: its picture stands above its table, and is its `_repr_svg_`
"""
import html


def escaped(said):
    return html.escape(str(said), quote=False)


def table_html(head, rows):
    """Names to the left, numbers to the right."""
    def line(kind, cells):
        styled = "".join(f'<{kind} style="text-align: {"right" if number else "left"}">{escaped(cell)}</{kind}>' for number, cell in enumerate(cells))
        return f"<tr>{styled}</tr>"

    top = f"<thead>{line('th', head)}</thead>" if head else ""
    return f"<table>{top}<tbody>{''.join(line('td', row) for row in rows)}</tbody></table>"


def lines_html(said):
    """Lines as they stand."""
    return f"<pre>{escaped(said)}</pre>"


class Shown:
    """`table()` gives a head and rows of text, and `below()` what stands below them."""

    def as_rows(self):
        """A list of dictionaries, one a row."""
        raise NotImplementedError

    def as_frame(self):
        """A pandas DataFrame of the rows."""
        try:
            import pandas
        except ImportError:
            raise ImportError("as_frame() needs pandas, which isn't there: as_rows() gives the same as a list of dictionaries") from None
        return pandas.DataFrame(self.as_rows())

    def table(self):
        raise NotImplementedError

    def __repr__(self):
        return str(self)

    def below(self):
        return ""

    def _repr_html_(self):
        below = self.below()
        return table_html(*self.table()) + (f"<div>{escaped(below)}</div>" if below else "")


class Drawn(Shown):
    def svg(self, title=None, percent="95"):
        raise NotImplementedError

    def _repr_svg_(self):
        return self.svg()

    def _repr_html_(self):
        """As wide as there is room."""
        drawn = self.svg().replace("<svg ", '<svg style="max-width: 100%; height: auto" ', 1)
        return f"{drawn}{super()._repr_html_()}"
