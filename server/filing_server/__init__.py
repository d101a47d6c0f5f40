"""The office's server: many clients before one `filing run --journal`, and a page for reviewers."""
