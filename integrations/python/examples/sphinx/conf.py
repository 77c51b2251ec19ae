project = "Equations"
extensions = ["latex2mathml_proved.sphinx"]
html_math_renderer = "latex2mathml"
latex2mathml_macros = {"R": r"\mathbb{R}"}
