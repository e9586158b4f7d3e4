"""The colours of code, of which each differs from its ground by 4.5 to 1 and more."""

from pygments.style import Style
from pygments.token import Comment, Generic, Keyword, Name, Number, Operator, String, Text


def _styles(keyword, string, number, comment, name, prompt):
    return {
        Text: "", Comment: comment, Comment.Preproc: keyword, Keyword: keyword, Keyword.Type: keyword, Name.Function: name, Name.Builtin: keyword,
        Operator.Word: keyword, String: string, Number: number, Generic.Prompt: prompt, Generic.Output: "", Generic.Error: string, Name.Class: name,
    }  # fmt: skip


class Light(Style):
    background_color = "#f5f6f8"
    styles = _styles("#7a1f6b", "#1d5e20", "#0b4f8a", "#5a6068", "#123f82", "#5a6068")


class Dark(Style):
    background_color = "#1f242b"
    styles = _styles("#e59bd8", "#a5d6a7", "#90c8ff", "#a3abb5", "#9dc1ff", "#a3abb5")
