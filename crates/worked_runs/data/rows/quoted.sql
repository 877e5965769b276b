SELECT 'a,b', 'say "hi"', 'plain text', '\N'
