SELECT inc()
