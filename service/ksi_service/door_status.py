"""The paths of counters and of health at the HTTP server.

    GET /status        counters, as JSON; as Prometheus' text if text/plain is accepted. Only this machine sees process numbers
    GET /metrics       counters as Prometheus' text
    GET /healthz       whether the process answers
    GET /readyz        whether requests are taken now: 200, or 503 with the reason
    GET /v1/problems   the codes of refusals
    GET /v1/openapi.json   the description of the API
    GET /              the page that signs and verifies in the browser, if it is built"""
from http import HTTPStatus
from typing import Any, Callable, Dict

from . import openapi
from .answers import JSON, Answer, Refusal, json_answer, problems
from .houses import House

PROMETHEUS = "text/plain; version=0.0.4; charset=utf-8"


class StatusPaths:
    def __init__(self, house: House, prometheus: Callable[[Dict[str, Any]], str]) -> None:
        self.house = house
        self.prometheus = prometheus

    async def status(self, request: Any) -> Answer:
        if "text/plain" in request.headers.get("accept", ""):
            return await self.metrics(request)
        counters = self.house.counters()
        if not request.caller.is_local:
            counters.pop("processes", None)
        return json_answer(counters)

    async def metrics(self, _: Any) -> Answer:
        return Answer(HTTPStatus.OK, self.prometheus(self.house.counters()), PROMETHEUS)

    async def health(self, _: Any) -> Answer:
        return Answer(HTTPStatus.OK, "ok")

    async def readiness(self, _: Any) -> Answer:
        reason = self.house.not_ready()
        return Answer(HTTPStatus.OK, "ready") if reason is None else Answer(HTTPStatus.SERVICE_UNAVAILABLE, reason, Retry_After="1")

    async def problems(self, _: Any) -> Answer:
        return json_answer({"problems": problems()}, Cache_Control="public, max-age=3600")

    async def openapi(self, _: Any) -> Answer:
        return Answer(HTTPStatus.OK, openapi.content(), JSON, Cache_Control="public, max-age=3600")

    async def page(self, _: Any) -> Answer:
        content = self.house.page()
        if content is None:
            raise Refusal("page-not-built", "the page is not built: make page")
        return Answer(HTTPStatus.OK, content, "text/html; charset=utf-8", Content_Security_Policy="frame-ancestors 'none'", Referrer_Policy="no-referrer")
