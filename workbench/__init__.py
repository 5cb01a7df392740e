"""The workbench: books, pools and questions as text over the proved library, and its answers with their grounds."""
