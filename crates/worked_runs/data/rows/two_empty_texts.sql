SELECT '', ''
