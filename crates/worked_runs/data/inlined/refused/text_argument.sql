SELECT inc('a')
