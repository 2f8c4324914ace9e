print("legal\n" * 4041 + "illegal key 7 index 4041")
