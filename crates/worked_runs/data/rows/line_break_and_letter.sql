SELECT 'a
b', 'hé'
