"""A plugin for MkDocs: the extension for Python-Markdown, which then knows the file of each page.

    plugins:
      - latex2mathml
"""
import logging
import os
from typing import Any, Optional

from mkdocs.config import config_options
from mkdocs.exceptions import ConfigurationError
from mkdocs.plugins import BasePlugin

from latex2mathml_proved.macros import MacroError
from latex2mathml_proved.markdown import NAME, Latex2MathML


class Latex2MathMLPlugin(BasePlugin):
    """The plugin. Its options are `macros` and `annotation`. With MkDocs' option `--strict`, a refused formula fails the build."""

    config_scheme = (
        ("macros", config_options.Type((dict, str), default={})),
        ("annotation", config_options.Type(bool, default=False)),
    )

    def on_config(self, config: Any) -> Any:
        macros = self.config["macros"]
        if isinstance(macros, str):
            macros = os.path.join(os.path.dirname(config["config_file_path"] or ""), macros)
        try:
            self._extension = Latex2MathML(macros=macros, annotation=self.config["annotation"])
        except (MacroError, OSError) as error:
            raise ConfigurationError(f"{NAME}: {error}") from error
        # MkDocs counts the warnings of loggers whose names begin like this
        self._extension.logger = logging.getLogger(f"mkdocs.plugins.{NAME}")
        config["markdown_extensions"].append(self._extension)
        return config

    def on_page_markdown(self, markdown: str, page: Any, **more: Any) -> str:
        self._extension.file = page.file.src_path
        # the lines of a file include those of its metadata, which are not part of `markdown`
        self._extension.text = text_of(page.file.abs_src_path)
        return markdown


def text_of(path: Optional[str]) -> Optional[str]:
    """Returns the text of a file, or None for a page that a plugin made, which has no file."""
    if path is None or not os.path.exists(path):
        return None
    with open(path, encoding="utf-8-sig") as file:
        return file.read()
