a $
