"""What only the report needs: its texts, its pictures and its pages."""
