CREATE TABLE route (src bigint, dst bigint, cost bigint);
