"""The page: a query, a database, their picture and table in a browser."""
