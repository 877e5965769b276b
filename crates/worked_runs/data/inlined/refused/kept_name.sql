SELECT inc(1) AS away_a
