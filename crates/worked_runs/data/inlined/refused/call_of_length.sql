SELECT length('a')
