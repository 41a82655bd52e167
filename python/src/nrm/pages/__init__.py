"""What is shown: tables of text, pictures by matplotlib, and pages of HTML by jinja2."""
