not a query
