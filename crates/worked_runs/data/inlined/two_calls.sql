SELECT inc(1) + inc(2), length('ab')
