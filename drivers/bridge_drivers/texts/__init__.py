"""Templates and styles, in files beside this one: of pages, and of completions of shells."""
